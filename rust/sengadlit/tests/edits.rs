//! Edits of texts in the repository's own font: what is shaped again, between the old glyphs, is what the
//! whole text would be. (checks/edits does so with real fonts and words.)
#![cfg(feature = "opentype")]

use sengadlit::editing::{Stretch, TextEdit, reshape};
use sengadlit::ot_shape_normalize::Rounds;
use sengadlit::{
    BufferClusterLevel, BufferFlags, Face, Feature, GlyphBuffer, GlyphPosition, Script, ShapePlan,
    UnicodeBuffer, script, shape_with_plan,
};
use std::str::FromStr;

#[allow(dead_code, reason = "other tests draw more kinds of numbers")]
#[path = "common/numbers.rs"]
mod numbers;
use numbers::Numbers;

/// The repository's font, which the crate's package lacks.
fn font() -> &'static [u8] {
    let path = concat!(env!("CARGO_MANIFEST_DIR"), "/../../fonts/sample.ttf");
    std::fs::read(path).unwrap().leak()
}

const TEXTS: [&str; 6] = [
    "Tofi LATVo fluffy AVAWAY the office fits a fjord",
    "naïve ẹ́ọ̀ ffi Ta\u{300}Vo \u{200D}f\u{200C}i waffle and toffee",
    "السلام لَّا بيت سنين تعيين العربية سلام",
    "हिन्दी नमस्ते कर्म क्षेत्र हिन्दी कर्म",
    "ខ្មែរ ស្រ្តី ក្រុង ភាសា ខ្មែរ ក្រុង",
    "ที่นี่ น้ำ ที่ น้ำนี่ ที่นี่",
];

struct Shaping {
    face: Face<'static>,
    plan: ShapePlan,
}

impl Shaping {
    fn of(text: &str) -> Self {
        let face = Face::parse(font(), 0).unwrap();
        let script = text.chars().find_map(Script::of_char).unwrap();
        let plan = ShapePlan::builder().script(script).rounds(Rounds::Always);
        let plan = plan.build(&face).unwrap();
        Shaping { face, plan }
    }

    fn shape(&self, text: &str, mut buffer: UnicodeBuffer) -> GlyphBuffer {
        buffer.push_str(text);
        shape_with_plan(&self.face, &self.plan, buffer)
    }
}

/// What is compared: numbers, clusters, flags and positions.
fn shown(glyphs: &GlyphBuffer) -> Vec<(u32, u32, u32, GlyphPosition)> {
    let infos = glyphs.glyph_infos().iter();
    infos
        .zip(glyphs.glyph_positions())
        .map(|(glyph, position)| (glyph.glyph_id, glyph.cluster, glyph.mask & 7, *position))
        .collect()
}

/// Puts up to four characters in the place of up to four.
fn edit(numbers: &mut Numbers, text: &mut String) -> TextEdit {
    let mut places: Vec<usize> = text.char_indices().map(|(at, _)| at).collect();
    places.push(text.len());
    let first = numbers.below(places.len());
    let last = (first + numbers.below(5)).min(places.len() - 1);
    let from: Vec<char> = numbers.one_of(&TEXTS).chars().chain(text.chars()).collect();
    let at = numbers.below(from.len());
    let put: String = from[at..].iter().take(numbers.below(5)).collect();
    let (start, old_end) = (places[first], places[last]);
    text.replace_range(start..old_end, &put);
    let new_end = start + put.len();
    TextEdit {
        start,
        old_end,
        new_end,
    }
}

#[test]
fn edits_come_out_as_the_whole_text() {
    let mut numbers = Numbers::new(7);
    for text in TEXTS {
        let shaping = Shaping::of(text);
        for flags in [BufferFlags(0), BufferFlags::PRODUCE_UNSAFE_TO_CONCAT] {
            for level in [
                BufferClusterLevel::MonotoneGraphemes,
                BufferClusterLevel::MonotoneCharacters,
                BufferClusterLevel::Characters,
            ] {
                let buffer = || {
                    let mut buffer = UnicodeBuffer::new();
                    buffer.set_flags(flags);
                    buffer.set_cluster_level(level);
                    buffer
                };
                let mut text = String::from(text);
                let mut glyphs = shaping.shape(&text, buffer());
                for _ in 0..60 {
                    let edit = edit(&mut numbers, &mut text);
                    let again = glyphs.reshape(&shaping.face, &shaping.plan, &text, edit);
                    let again = again.unwrap();
                    let whole = shaping.shape(&text, buffer());
                    assert_eq!(
                        shown(&glyphs),
                        shown(&whole),
                        "{text:?} by {edit:?}: {again:?}"
                    );
                    assert!(again.start <= edit.start && edit.new_end <= again.end);
                    assert!(level != BufferClusterLevel::Characters || again == (0..text.len()));
                }
            }
        }
    }
}

#[test]
fn little_is_shaped_again_of_a_long_text() {
    let shaping = Shaping::of(TEXTS[0]);
    let mut text = TEXTS[0].repeat(50);
    let mut glyphs = shaping.shape(&text, UnicodeBuffer::new());
    let start = TEXTS[0].len() * 25;
    text.replace_range(start..start + 4, "Va");
    let edit = TextEdit {
        start,
        old_end: start + 4,
        new_end: start + 2,
    };
    let again = glyphs.reshape(&shaping.face, &shaping.plan, &text, edit);
    assert!(again.unwrap().len() < 24);
    assert_eq!(
        shown(&glyphs),
        shown(&shaping.shape(&text, UnicodeBuffer::new()))
    );
}

// An edit moves the ranges of features, so that glyphs far from it change.
#[test]
fn features_with_ranges_are_set_anew() {
    let mut shaping = Shaping::of(TEXTS[0]);
    let mut text = TEXTS[0].repeat(2);
    let features = [Feature::from_str("-liga[30:60]").unwrap()];
    let plan = ShapePlan::builder()
        .script(script::LATIN)
        .rounds(Rounds::Always);
    shaping.plan = plan.features(&features).build(&shaping.face).unwrap();
    let mut glyphs = shaping.shape(&text, UnicodeBuffer::new());
    text.insert_str(0, "ff");
    let edit = TextEdit {
        start: 0,
        old_end: 0,
        new_end: 2,
    };
    let again = glyphs.reshape(&shaping.face, &shaping.plan, &text, edit);
    assert_eq!(again.unwrap(), 0..text.len());
    assert_eq!(
        shown(&glyphs),
        shown(&shaping.shape(&text, UnicodeBuffer::new()))
    );
}

// A text that begins or ends with nothing, and the contexts of a text within a longer one.
#[test]
fn empty_texts_and_contexts() {
    let shaping = Shaping::of("سلام");
    let with_contexts = || {
        let mut buffer = UnicodeBuffer::new();
        buffer.set_pre_context("ب");
        buffer.set_post_context("بب");
        buffer
    };
    let mut glyphs = shaping.shape("", with_contexts());
    let mut before = "";
    for text in ["سلام", "سلامس", "م", "", "بيت"] {
        let edit = TextEdit {
            start: 0,
            old_end: before.len(),
            new_end: text.len(),
        };
        let again = glyphs.reshape(&shaping.face, &shaping.plan, text, edit);
        assert_eq!(again.unwrap(), 0..text.len());
        assert_eq!(shown(&glyphs), shown(&shaping.shape(text, with_contexts())));
        before = text;
    }
}

// A stretch that is the whole text has no end to look at.
#[test]
fn short_texts_are_shaped_whole() {
    let shaping = Shaping::of("fi");
    let shaped = shaping.shape("fi", UnicodeBuffer::new());
    let edit = TextEdit {
        start: 2,
        old_end: 2,
        new_end: 3,
    };
    let stretch = reshape("fit", edit, shaped.run());
    let (text, glyphs) = (0..3, 0..1);
    assert_eq!(stretch, Stretch { text, glyphs });
    let piece = shaping.shape("fit", UnicodeBuffer::new());
    let widened = stretch.widened("fit", edit, shaped.run(), piece.run());
    assert_eq!(widened, None);
}

#[test]
#[should_panic(expected = "the edit is one of the text")]
fn edits_lie_in_the_text() {
    let shaping = Shaping::of("fi");
    let glyphs = shaping.shape("fi", UnicodeBuffer::new());
    let edit = TextEdit {
        start: 1,
        old_end: 2,
        new_end: 4,
    };
    reshape("fit", edit, glyphs.run());
}
