//! Normalization through a caller's type, with a few of Unicode's characters, and for shapers.
#![cfg(feature = "text")]

use sengadlit::alloc::Global;
use sengadlit::buffer::UnicodeProps;
use sengadlit::map::Map;
use sengadlit::ot_shape_normalize::{
    NormalizeContext, NormalizeFont, NormalizeSettings, Rounds, length_bound, normalize,
    ot_shape_normalize,
};
use sengadlit::plan::NormalizationMode;
use sengadlit::unicode::UnicodeTables;
use sengadlit::{
    Buffer, BufferClusterLevel, Font, GeneralCategory, GlyphId, GlyphInfo, Plan, Shaper,
    ShaperError, Tag,
};

/// A shaper that takes letters and marks apart, over a font with these characters.
struct Latin(&'static [u32]);

const PAIRS: [(u32, u32, u32); 3] = [
    (0xE9, 0x65, 0x301),
    (0xEA, 0x65, 0x302),
    (0x1EBF, 0xEA, 0x301),
];

impl NormalizeContext for Latin {
    fn normalization_preference(&self) -> NormalizationMode {
        NormalizationMode::CD
    }

    fn decompose(&self, ab: u32) -> Option<(u32, u32)> {
        PAIRS
            .iter()
            .find(|pair| pair.0 == ab)
            .map(|pair| (pair.1, pair.2))
    }

    fn compose(&self, a: u32, b: u32) -> Option<u32> {
        PAIRS
            .iter()
            .find(|pair| (pair.1, pair.2) == (a, b))
            .map(|pair| pair.0)
    }

    fn nominal_glyph(&self, c: u32) -> Option<GlyphId> {
        let place = self.0.iter().position(|known| *known == c)?;
        u16::try_from(place + 1).ok().map(GlyphId)
    }

    fn variation_glyph(&self, c: u32, selector: u32) -> Option<GlyphId> {
        match (c, selector) {
            (0x65, 0xFE01) => Some(GlyphId(99)),
            // (which no font should have: a selector behind another one selects nothing)
            (0xFE01, 0xFE02) => Some(GlyphId(98)),
            _ => None,
        }
    }

    fn general_category(&self, c: u32) -> GeneralCategory {
        match c {
            0x300..=0x36F | 0xFE00..=0xFE0F => GeneralCategory::Mn,
            _ => GeneralCategory::Ll,
        }
    }

    fn modified_combining_class(&self, c: u32) -> u8 {
        if c == 0x323 { 220 } else { 230 }
    }

    fn is_default_ignorable(&self, c: u32) -> bool {
        matches!(c, 0xFE00..=0xFE0F)
    }

    fn invisible_glyph(&self) -> Option<GlyphId> {
        None
    }

    fn draws_selectors(&self) -> bool {
        false
    }

    fn reorder_marks(&self, _: BufferClusterLevel, _: &mut [GlyphInfo], _: usize, _: usize) {}
}

fn buffer(latin: &Latin, text: &str) -> Buffer {
    let mut buffer = Buffer::default();
    buffer.push_str(text).unwrap();
    buffer.with_glyphs_mut(|glyphs| {
        for glyph in glyphs {
            let category = latin.general_category(glyph.glyph_id);
            let class = latin.modified_combining_class(glyph.glyph_id);
            glyph.unicode_props = UnicodeProps::new(category, class);
        }
    });
    buffer
}

fn characters(buffer: &Buffer) -> Vec<u32> {
    buffer.glyphs().iter().map(|glyph| glyph.glyph_id).collect()
}

const WHOLE: Latin = Latin(&[0x65, 0x301, 0x302, 0x323, 0xE9, 0xEA, 0x1EBF]);

#[test]
fn settings_by_default() {
    let settings = NormalizeSettings {
        rounds: Rounds::AsCode,
        invisible_glyph: None,
        draws_selectors: false,
    };
    assert_eq!(NormalizeSettings::default(), settings);
    assert_eq!(Rounds::default(), Rounds::AsCode);
}

#[test]
fn marks_are_ordered_and_composed() {
    let mut text = buffer(&WHOLE, "e\u{301}\u{323}");
    normalize(&WHOLE, Rounds::AsCode, &mut text).unwrap();
    assert_eq!(characters(&text), [0xE9, 0x323]);
    let numbers: Vec<u16> = text.iter().map(|glyph| glyph.glyph_props.0).collect();
    assert_eq!(numbers, [5, 4]);
}

/// The last mark, whose class is the least, comes to the front of 32 marks, and stays behind 33.
#[test]
fn up_to_32_marks_are_ordered() {
    for (count, first, last) in [(31, 0x323, 0x301), (32, 0x323, 0x301), (33, 0x301, 0x323)] {
        let marks = "\u{301}".repeat(count - 1);
        let mut text = buffer(&WHOLE, &format!("b{marks}\u{323}"));
        normalize(&WHOLE, Rounds::AsCode, &mut text).unwrap();
        let left = characters(&text);
        assert_eq!((left.len(), left[1], left[count]), (count + 1, first, last));
    }
}

#[test]
fn a_letter_alone_stays_apart_unless_rounds_always_run() {
    let mut text = buffer(&WHOLE, "\u{1EBF}");
    normalize(&WHOLE, Rounds::AsCode, &mut text).unwrap();
    assert_eq!(characters(&text), [0x65, 0x302, 0x301]);
    let mut text = buffer(&WHOLE, "\u{1EBF}");
    normalize(&WHOLE, Rounds::Always, &mut text).unwrap();
    assert_eq!(characters(&text), [0x1EBF]);
}

#[test]
fn a_text_that_is_too_long_apart_is_refused_unchanged() {
    let mut text = buffer(&WHOLE, "\u{1EBF}");
    text.set_max_len(2);
    let before = text.glyphs().to_vec();
    let refused = normalize(&WHOLE, Rounds::Always, &mut text);
    assert_eq!(refused, Err(ShaperError::TooLong));
    assert_eq!(text.glyphs(), before);
    assert_eq!(length_bound(1), 9);
}

#[test]
fn a_form_that_the_font_has_stands_for_letter_and_selector() {
    let mut text = buffer(&WHOLE, "e\u{FE01}\u{FE00}");
    normalize(&WHOLE, Rounds::AsCode, &mut text).unwrap();
    let glyphs: Vec<_> = text.glyphs().iter().map(shown).collect();
    assert_eq!(glyphs, [(0x65, 99, 0), (0xFE00, 0, 4)]);
}

/// The second of two selectors doesn't come into the cluster of the form that the first one selects.
#[test]
fn a_selector_behind_another_selects_nothing() {
    let mut text = buffer(&WHOLE, "e\u{FE01}\u{FE02}");
    normalize(&WHOLE, Rounds::AsCode, &mut text).unwrap();
    let left: Vec<_> = text
        .iter()
        .map(|glyph| (glyph.glyph_props.0, glyph.cluster))
        .collect();
    assert_eq!(left, [(99, 0), (0, 4)]);
}

#[test]
fn a_form_that_the_font_lacks_leaves_both() {
    let mut text = buffer(&WHOLE, "e\u{FE00}");
    normalize(&WHOLE, Rounds::AsCode, &mut text).unwrap();
    let glyphs: Vec<_> = text.glyphs().iter().map(shown).collect();
    assert_eq!(glyphs, [(0x65, 1, 0), (0xFE00, 0, 1)]);
    let selector = text.get(1).unicode_props;
    assert_eq!(selector.general_category(), GeneralCategory::Cf);
    assert_eq!(selector.high_byte(), 4);
}

/// The character, its glyph and its cluster.
fn shown(glyph: &GlyphInfo) -> (u32, u16, u32) {
    (glyph.glyph_id, glyph.glyph_props.0, glyph.cluster)
}

/// A font that has every character below 65535, and no form that a selector selects.
struct Whole;

impl Font for Whole {
    fn nominal_glyph(&self, c: u32) -> Option<GlyphId> {
        u16::try_from(c).ok().map(GlyphId)
    }

    fn glyph_h_advance(&self, _: GlyphId) -> i32 {
        0
    }

    fn would_apply(&self, _: u16, _: &[GlyphId], _: bool) -> bool {
        false
    }

    fn has_feature(&self, _: Tag) -> bool {
        false
    }
}

impl NormalizeFont for Whole {
    fn variation_glyph(&self, _: u32, _: u32) -> Option<GlyphId> {
        None
    }
}

fn shaped(shaper: Shaper, rounds: Rounds, text: &str) -> Vec<u32> {
    let mut buffer = Buffer::from_text(text, &UnicodeTables).unwrap();
    let settings = NormalizeSettings {
        rounds,
        ..NormalizeSettings::default()
    };
    let map = Map::from_slices(Global, &[], &[], &[], 0, None, false);
    let plan = Plan::new(None, map.unwrap().unwrap());
    let shaper = Some(shaper);
    ot_shape_normalize(
        shaper,
        &plan,
        &Whole,
        &UnicodeTables,
        &settings,
        &mut buffer,
    )
    .unwrap();
    characters(&buffer)
}

#[test]
fn a_letter_alone_is_as_in_a_longer_text_if_rounds_always_run() {
    let apart = [0x1025, 0x102E];
    assert_eq!(shaped(Shaper::Myanmar, Rounds::AsCode, "\u{1026}"), apart);
    assert_eq!(
        shaped(Shaper::Myanmar, Rounds::Always, "\u{1026}"),
        [0x1026]
    );
    let longer = "\u{1026}\u{1000}\u{102F}";
    assert_eq!(
        shaped(Shaper::Myanmar, Rounds::AsCode, longer),
        [0x1026, 0x1000, 0x102F]
    );
}

#[test]
fn shapers_have_their_own_pairs_and_orders() {
    // Khmer's split vowel; Bengali's YYA, which Unicode excludes from composition
    let khmer = shaped(Shaper::Khmer, Rounds::Always, "\u{1780}\u{17BE}");
    assert_eq!(khmer, [0x1780, 0x17C1, 0x17BE]);
    let bengali = shaped(Shaper::Indic, Rounds::Always, "\u{09AF}\u{09BC}");
    assert_eq!(bengali, [0x09DF]);
    // Hebrew's meteg goes before hiriq behind patah; a hamza above before a damma
    let hebrew = shaped(
        Shaper::Hebrew,
        Rounds::Always,
        "\u{05DC}\u{05B7}\u{05B4}\u{05BD}",
    );
    assert_eq!(hebrew, [0x05DC, 0x05B7, 0x05BD, 0x05B4]);
    let arabic = shaped(Shaper::Arabic, Rounds::Always, "\u{0628}\u{064F}\u{0654}");
    assert_eq!(arabic, [0x0628, 0x0654, 0x064F]);
}
