//! Fonts and tables that panic: at whichever question they do, the buffer is as it was, or empty.

mod common;

use common::buffers::{
    Contents, Glyphs, copy_of, random_buffer, random_spans, set_random_positions, text_of,
};
use common::calls::{Call, Returned, Setting};
use common::fonts::{LotFont, LotTables, Steady};
use common::numbers::Numbers;
use common::plans::random_plan;
use common::watchdog::{caught, in_time};
use sengadlit::alloc::Global;
use sengadlit::buffer::{Buffer, GeneralCategory, Script, ShaperError, Span, Tag};
use sengadlit::font::{Font, GlyphId, Tables};
use sengadlit::plan::{Category, JoiningType, Pause, Plan, Planner, Position};
use sengadlit::shaper::Shaper;
use std::cell::Cell;
use std::collections::BTreeMap;
use std::panic;

/// A font or tables that panic after so many calls.
struct Panicking<'a, A> {
    asked: A,
    left: &'a Cell<usize>,
}

impl<A> Panicking<'_, A> {
    fn ask<R>(&self, question: impl Fn(&A) -> R) -> R {
        let left = self.left.get();
        if left == 0 {
            // (as a panic unwinds, but without its message)
            panic::resume_unwind(Box::new("the caller's code"));
        }
        self.left.set(left - 1);
        question(&self.asked)
    }
}

impl<F: Font> Font for Panicking<'_, F> {
    fn nominal_glyph(&self, c: u32) -> Option<GlyphId> {
        self.ask(|font| font.nominal_glyph(c))
    }

    fn glyph_h_advance(&self, glyph: GlyphId) -> i32 {
        self.ask(|font| font.glyph_h_advance(glyph))
    }

    fn would_apply(&self, lookup: u16, glyphs: &[GlyphId], zero_context: bool) -> bool {
        self.ask(|font| font.would_apply(lookup, glyphs, zero_context))
    }

    fn has_feature(&self, tag: Tag) -> bool {
        self.ask(|font| font.has_feature(tag))
    }
}

impl<T: Tables> Tables for Panicking<'_, T> {
    fn joining_type(&self, c: char) -> JoiningType {
        self.ask(|tables| tables.joining_type(c))
    }

    fn general_category(&self, c: char) -> GeneralCategory {
        self.ask(|tables| tables.general_category(c))
    }

    fn indic_categories(&self, c: u32) -> (Category, Position) {
        self.ask(|tables| tables.indic_categories(c))
    }

    fn use_category(&self, c: u32) -> Category {
        self.ask(|tables| tables.use_category(c))
    }

    fn compose(&self, a: char, b: char) -> Option<char> {
        self.ask(|tables| tables.compose(a, b))
    }

    fn decompose(&self, ab: char) -> Option<(char, char)> {
        self.ask(|tables| tables.decompose(ab))
    }
}

/// A call, and all that it is made with but for the font and the tables.
struct Scene {
    seed: u64,
    call: Call,
    shaper: Shaper,
    plan: Plan,
    spans: Vec<Span>,
    buffer: Buffer,
}

impl Scene {
    fn random(seed: u64) -> Self {
        let numbers = &mut Numbers::new(seed);
        let shaper = numbers.one_of(&Shaper::ALL);
        let mut buffer = match shaper {
            Shaper::Thai => thai_text(numbers),
            _ => random_buffer(numbers, Glyphs::Letters),
        };
        let call = Call::random(numbers, buffer.len());
        if call.wants_positions() {
            set_random_positions(numbers, &mut buffer);
        }
        let mut plan = random_plan(numbers, shaper);
        if shaper == Shaper::Thai {
            plan.script = Some(Script(*b"Thai"));
        }
        Scene {
            seed,
            call,
            shaper,
            plan,
            spans: random_spans(numbers, buffer.len(), 15),
            buffer,
        }
    }

    /// Makes the call with a font and tables that return so many times; `None` where its
    /// conditions don't hold.
    fn make(&self, answers: usize, buffer: &mut Buffer) -> Option<Outcome> {
        let left = &Cell::new(answers);
        let asked = LotFont(Steady(self.seed));
        let font = &Panicking { asked, left };
        let asked = LotTables(Steady(self.seed));
        let setting = Setting {
            shaper: self.shaper,
            plan: &self.plan,
            font,
            tables: &Panicking { asked, left },
            spans: &self.spans,
        };
        let fits = self.call.fits(&setting, &self.buffer);
        fits.then(|| caught(|| self.call.make(&setting, buffer)).ok())
    }

    /// Whether a font that panics leaves an empty buffer in place of a text, by its documentation.
    fn leaves_empty(&self) -> bool {
        match self.call {
            Call::Preprocess => self.shaper == Shaper::Thai,
            Call::Postprocess => true,
            call => call == Call::Pause(Pause::InitialReordering),
        }
    }

    /// The hook, and whose it is.
    fn name(&self) -> String {
        match self.call {
            Call::Preprocess => format!("{:?} preprocesses", self.shaper),
            Call::Masks => format!("{:?} sets masks", self.shaper),
            Call::Marks(..) => format!("{:?} reorders marks", self.shaper),
            Call::Postprocess => format!("{:?} postprocesses", self.shaper),
            Call::Compose(..) | Call::Decompose(_) => "pairs".into(),
            Call::Pause(pause) => format!("{pause:?}"),
        }
    }
}

/// Letters and marks of Thai, for which fonts may have private use forms.
fn thai_text(numbers: &mut Numbers) -> Buffer {
    let characters: Vec<_> = (0..8).map(|_| 0xE01 + numbers.below(0x4E) as u32).collect();
    text_of(&characters, 20)
}

/// What a call returned, if it did.
type Outcome = Option<Result<Returned, ShaperError>>;

/// Asserts that a call that panicked left the buffer as it was, or empty, and that it can be made
/// again.
fn check_left(scene: &Scene, left: &mut Buffer, whole: &(Outcome, Contents)) {
    let is_as_it_was = Contents::of(left) == Contents::of(&scene.buffer);
    let is_empty = left.is_empty() && left.positions_len() == 0;
    let name = scene.name();
    match scene.call {
        Call::Masks => assert!(is_as_it_was || is_empty, "{name}"),
        _ if scene.leaves_empty() => assert!(is_empty, "{name}"),
        _ => assert!(is_as_it_was, "{name}"),
    }
    let again = scene.make(usize::MAX, left).unwrap();
    assert!(!is_as_it_was || (again, Contents::of(left)) == *whole);
}

/// Makes the call with a font and tables that panic at each question in turn. How many questions
/// there were, if the call's conditions hold.
fn panic_at_each_question(scene: &Scene) -> Option<usize> {
    let mut buffer = copy_of(&scene.buffer);
    let returned = scene.make(usize::MAX, &mut buffer)?;
    assert!(returned.is_some());
    let whole = (returned, Contents::of(&buffer));
    let mut answers = 0;
    loop {
        let mut left = copy_of(&scene.buffer);
        match scene.make(answers, &mut left)? {
            None => check_left(scene, &mut left, &whole),
            Some(_) => return Some(answers),
        }
        answers += 1;
    }
}

/// The hooks and pauses that read a font or tables: each has to be seen with several questions.
const ASKING: [&str; 13] = [
    "Arabic postprocesses",
    "Arabic sets masks",
    "FinalReordering",
    "Hangul preprocesses",
    "Indic sets masks",
    "InitialReordering",
    "Khmer sets masks",
    "Myanmar sets masks",
    "ReorderKhmer",
    "ReorderMyanmar",
    "ReorderUse",
    "Thai preprocesses",
    "Universal sets masks",
];

#[test]
fn a_hook_leaves_no_half_made_buffer() {
    in_time(|| {
        let mut most: BTreeMap<String, usize> = BTreeMap::new();
        for scene in (0..20_000).map(Scene::random) {
            if let Some(asked) = panic_at_each_question(&scene) {
                let most = most.entry(scene.name()).or_default();
                *most = asked.max(*most);
            }
        }
        most.retain(|name, asked| *asked > 0 && name != "pairs");
        assert!(most.keys().eq(&ASKING), "{most:?}");
    });
}

/// A planner is as it was, too: all requests are added at once.
#[test]
fn a_planner_has_no_part_of_the_requests() {
    for shaper in Shaper::ALL {
        let left = &Cell::new(0);
        let asked = LotFont(Steady(1));
        let font = &Panicking { asked, left };
        let mut planner = Planner::new(Global, Some(Script(*b"Arab")));
        let outcome = caught(|| shaper.collect_features(font, &mut planner));
        assert_eq!(outcome.is_err(), shaper == Shaper::Arabic);
        assert!(outcome.is_ok() || planner.requests().is_empty());
    }
}

#[cfg(feature = "text")]
mod text {
    use super::*;
    use sengadlit::buffer::{BufferClusterLevel, GlyphInfo, UnicodeProps};
    use sengadlit::ot_shape_normalize::{NormalizeContext, Rounds, normalize};
    use sengadlit::plan::NormalizationMode;

    /// A few of Unicode's letters and marks, a font that has them all, and how the shaper wants texts normalized.
    struct Latin(NormalizationMode);

    const PAIRS: [(u32, u32, u32); 3] = [
        (0xE9, 0x65, 0x301),
        (0xEA, 0x65, 0x302),
        (0x1EBF, 0xEA, 0x301),
    ];

    impl NormalizeContext for Panicking<'_, Latin> {
        fn normalization_preference(&self) -> NormalizationMode {
            self.ask(|latin| latin.0)
        }

        fn decompose(&self, ab: u32) -> Option<(u32, u32)> {
            let found = PAIRS.iter().find(|pair| pair.0 == ab);
            self.ask(|_| found.map(|pair| (pair.1, pair.2)))
        }

        fn compose(&self, a: u32, b: u32) -> Option<u32> {
            let found = PAIRS.iter().find(|pair| (pair.1, pair.2) == (a, b));
            self.ask(|_| found.map(|pair| pair.0))
        }

        fn nominal_glyph(&self, c: u32) -> Option<GlyphId> {
            self.ask(|_| u16::try_from(c).ok().map(GlyphId))
        }

        fn variation_glyph(&self, c: u32, _: u32) -> Option<GlyphId> {
            self.ask(|_| u16::try_from(c).ok().map(GlyphId))
        }

        fn draws_selectors(&self) -> bool {
            self.ask(|_| false)
        }

        fn general_category(&self, c: u32) -> GeneralCategory {
            let categories = [GeneralCategory::Ll, GeneralCategory::Mn];
            self.ask(|_| categories[usize::from(mark_class(c).is_some())])
        }

        fn modified_combining_class(&self, c: u32) -> u8 {
            self.ask(|_| if c == 0x323 { 220 } else { 230 })
        }

        fn is_default_ignorable(&self, _: u32) -> bool {
            self.ask(|_| false)
        }

        fn invisible_glyph(&self) -> Option<GlyphId> {
            self.ask(|_| None)
        }

        fn reorder_marks(&self, _: BufferClusterLevel, _: &mut [GlyphInfo], _: usize, _: usize) {
            self.ask(|_| ());
        }
    }

    /// Normalizes with a context that returns so many times; returns whether it did.
    fn is_normalized(mode: NormalizationMode, answers: usize, buffer: &mut Buffer) -> bool {
        let left = &Cell::new(answers);
        let asked = Latin(mode);
        let context = Panicking { asked, left };
        caught(|| normalize(&context, Rounds::Always, buffer).unwrap()).is_ok()
    }

    /// The combining class of a mark or a variation selector.
    fn mark_class(c: u32) -> Option<u8> {
        match c {
            0x323 => Some(220),
            0x300..=0x36F => Some(230),
            0xFE00..=0xFE0F => Some(0),
            _ => None,
        }
    }

    /// A text of Latin letters, marks and variation selectors.
    fn latin_text(characters: &[u32]) -> Buffer {
        let mut text = text_of(characters, 100);
        text.with_glyphs_mut(|glyphs| {
            for glyph in glyphs {
                if let Some(class) = mark_class(glyph.glyph_id) {
                    glyph.unicode_props = UnicodeProps::new(GeneralCategory::Mn, class);
                }
            }
        });
        text
    }

    /// Makes a call that panics at each question in turn, and returns how often the buffer was as
    /// before, and how often empty.
    fn left_by(text: &Buffer, make: impl Fn(usize, &mut Buffer) -> bool) -> [usize; 2] {
        let mut whole = copy_of(text);
        assert!(make(usize::MAX, &mut whole));
        let mut kinds = [0, 0];
        for answers in 0.. {
            let mut left = copy_of(text);
            if make(answers, &mut left) {
                break;
            }
            kinds[usize::from(left.is_empty())] += 1;
            if !left.is_empty() {
                assert_eq!(Contents::of(&left), Contents::of(text));
                assert!(make(usize::MAX, &mut left));
                assert_eq!(Contents::of(&left), Contents::of(&whole));
            }
        }
        kinds
    }

    #[test]
    fn normalization_leaves_no_half_made_buffer() {
        // letters that come apart; letters alone, which stay, more than are numbered as a word;
        // letters with marks that stay; letters in the forms of their variation selectors
        let apart = latin_text(&[0x1EBF, 0x323, 0x65, 0x301, 0x323, 0x34F, 0xEA, 0xE9]);
        let letters = [0x61, 0x62, 0x63, 0x64, 0x65, 0x66, 0x67, 0x68];
        let alone = latin_text(&letters.repeat(5));
        let staying = latin_text(&[0x61, 0x323, 0x62, 0x323, 0x63, 0x323, 0x64, 0x323]);
        let selected = latin_text(&[0x61, 0xFE00].repeat(6));
        // (a shaper that leaves letters whole, and one that doesn't)
        for mode in [NormalizationMode::AUTO, NormalizationMode::CD] {
            for text in [&apart, &alone, &staying, &selected] {
                let kinds = left_by(text, |answers, buffer| is_normalized(mode, answers, buffer));
                assert!(kinds.iter().all(|count| *count > 5), "{kinds:?}");
            }
        }
        // of a word that stays, each question is answered before the first glyph changes
        let word = latin_text(&letters);
        let mode = NormalizationMode::AUTO;
        let kinds = left_by(&word, |answers, buffer| {
            is_normalized(mode, answers, buffer)
        });
        assert!(kinds[0] > 5 && kinds[1] == 0, "{kinds:?}");
    }

    mod preparing {
        use super::*;
        use sengadlit::buffer::Direction;
        use sengadlit::ot_shape_prepare::{
            CharRotation, UnicodeProperties, rotate_chars, set_unicode_properties,
        };
        use sengadlit::unicode::UnicodeTables;

        impl UnicodeProperties for Panicking<'_, UnicodeTables> {
            fn general_category(&self, c: u32) -> GeneralCategory {
                self.ask(|tables| UnicodeProperties::general_category(tables, c))
            }

            fn modified_combining_class(&self, c: u32) -> u8 {
                self.ask(|tables| tables.modified_combining_class(c))
            }

            fn is_default_ignorable(&self, c: u32) -> bool {
                self.ask(|tables| tables.is_default_ignorable(c))
            }

            fn is_extended_pictographic(&self, c: u32) -> bool {
                self.ask(|tables| tables.is_extended_pictographic(c))
            }

            fn mirrored(&self, c: u32) -> Option<u32> {
                self.ask(|tables| tables.mirrored(c))
            }

            fn vertical_form(&self, c: u32) -> Option<u32> {
                self.ask(|tables| tables.vertical_form(c))
            }
        }

        fn panicking<A>(asked: A, left: &Cell<usize>) -> Panicking<'_, A> {
            Panicking { asked, left }
        }

        #[test]
        fn properties_and_rotation_leave_no_half_made_buffer() {
            let text = latin_text(&[0x28, 0x65, 0x301, 0x29, 0x2026, 0x3C]);
            let properties = left_by(&text, |answers, buffer| {
                let left = &Cell::new(answers);
                caught(|| set_unicode_properties(&panicking(UnicodeTables, left), buffer)).is_ok()
            });
            let mut kinds = vec![properties];
            for direction in [Direction::RightToLeft, Direction::TopToBottom] {
                let rotation = CharRotation {
                    direction,
                    rtlm_mask: 1 << 8,
                    has_vert: false,
                };
                kinds.push(left_by(&text, |answers, buffer| {
                    let left = &Cell::new(answers);
                    let unicode = panicking(UnicodeTables, left);
                    let font = panicking(LotFont(Steady(1)), left);
                    caught(|| rotate_chars(&unicode, &font, &rotation, buffer)).is_ok()
                }));
            }
            assert!(kinds.iter().all(|[_, empty]| *empty > 5), "{kinds:?}");
        }
    }
}
