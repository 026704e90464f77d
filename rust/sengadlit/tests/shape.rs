//! `shape` and its parts: whose script and direction are in force, how long a text may get, and what is left of one that is
//! refused.

#![cfg(feature = "text")]

use sengadlit::alloc::Global;
use sengadlit::buffer::{GlyphProps, LigProps};
use sengadlit::font::Font;
use sengadlit::map::TableIndex;
use sengadlit::ot_shape::{
    Lookups, ShapeSettings, StagePlan, TextPlan, prepare_text, run_stages, shape, substitute_text,
};
use sengadlit::ot_shape_normalize::{NormalizeFont, NormalizeSettings};
use sengadlit::ot_shape_plan::{EnginePlan, FontFeatures, StageLookup};
use sengadlit::ot_shape_position::{DefaultIgnorables, GlyphClasses, MetricsFont};
use sengadlit::shaper::checked::CallError;
use sengadlit::unicode::UnicodeTables;
use sengadlit::{Buffer, Direction, GlyphId, GlyphInfo, Script, ShaperError, Tag, script};
use std::cell::{Cell, RefCell};
use std::panic;

/// The mark that stretches over a word.
const ABBREVIATION_MARK: u32 = 0x70F;

/// SHIN with a point, which comes apart into two characters.
const LETTER_WITH_POINT: u16 = 0xFB2A;

/// A font with a glyph for each character but SHIN with a point, by its number. The mark of abbreviation is one tile, by lookup 1 of the feature `stch`,
/// and lookup 2 is that of the feature `mark` of GPOS.
struct TestFont {
    letter: i32,
    last_letter: i32,
    tile: i32,
    /// The lookups that refuse.
    refuses: Vec<u16>,
    /// How many glyphs get their notes before one panics.
    notes: Cell<usize>,
    /// How many questions have results before one panics.
    answers: Cell<usize>,
    /// The direction and script of the text that each lookup was given.
    seen: RefCell<Vec<(Direction, Option<Script>)>>,
}

impl TestFont {
    fn of(letter: i32) -> Self {
        TestFont {
            letter,
            last_letter: letter,
            tile: 1,
            refuses: Vec::new(),
            notes: Cell::new(usize::MAX),
            answers: Cell::new(usize::MAX),
            seen: RefCell::default(),
        }
    }

    fn refusing(lookup: u16) -> Self {
        let mut font = TestFont::of(500);
        font.refuses.push(lookup);
        font
    }

    /// Returns the result, or panics after so many.
    fn ask<R>(&self, result: R) -> R {
        count_down(&self.answers);
        result
    }

    fn apply(&self, lookup: &StageLookup, text: &Buffer) -> Result<(), ShaperError> {
        let as_given = (text.direction(), text.script());
        self.seen.borrow_mut().push(as_given);
        if self.refuses.contains(&lookup.index) {
            Err(ShaperError::Memory)
        } else {
            Ok(())
        }
    }
}

/// Counts a question, or panics where none is left.
fn count_down(left: &Cell<usize>) {
    if left.get() == 0 {
        panic::resume_unwind(Box::new("the caller's code"));
    }
    left.set(left.get() - 1);
}

impl Font for TestFont {
    fn nominal_glyph(&self, c: u32) -> Option<GlyphId> {
        let number = self.ask(u16::try_from(c)).ok()?;
        (number != LETTER_WITH_POINT).then_some(GlyphId(number))
    }

    fn glyph_h_advance(&self, glyph: GlyphId) -> i32 {
        self.ask(match u32::from(glyph) {
            ABBREVIATION_MARK => self.tile,
            0x715 => self.last_letter,
            _ => self.letter,
        })
    }

    fn would_apply(&self, _: u16, _: &[GlyphId], _: bool) -> bool {
        self.ask(false)
    }

    fn has_feature(&self, tag: Tag) -> bool {
        tag == Tag(*b"stch")
    }
}

impl NormalizeFont for TestFont {
    fn variation_glyph(&self, _: u32, _: u32) -> Option<GlyphId> {
        self.ask(None)
    }
}

impl MetricsFont for TestFont {
    fn units_per_em(&self) -> u16 {
        self.ask(1000)
    }

    fn glyph_v_advance(&self, _: GlyphId) -> i32 {
        self.ask(0)
    }

    fn glyph_v_origin(&self, _: GlyphId) -> (i32, i32) {
        self.ask((0, 0))
    }
}

impl FontFeatures for TestFont {
    fn has_table(&self, _: TableIndex) -> bool {
        true
    }

    fn chosen_script(&self, _: TableIndex) -> Option<Tag> {
        Some(Tag(*b"syrc"))
    }

    fn found_script(&self, _: TableIndex) -> bool {
        true
    }

    fn feature_lookups(&self, table: TableIndex, tag: Tag) -> Option<&[u16]> {
        match (table, &tag.0) {
            (TableIndex::GSUB, b"stch") => Some(&[1]),
            (TableIndex::GPOS, b"mark") => Some(&[2]),
            _ => None,
        }
    }

    fn any_feature_lookups(&self, _: TableIndex, _: Tag) -> Option<&[u16]> {
        None
    }

    fn required_feature(&self, _: TableIndex) -> Option<Tag> {
        None
    }

    fn required_lookups(&self, _: TableIndex) -> &[u16] {
        &[]
    }
}

impl GlyphClasses for TestFont {
    fn is_mark(&self, _: &GlyphInfo) -> bool {
        self.ask(false)
    }
}

impl Lookups for TestFont {
    fn glyph_props(&self, _: &GlyphInfo) -> GlyphProps {
        count_down(&self.notes);
        self.ask(GlyphProps::NONE)
    }

    fn growth(&self, _: &StageLookup) -> usize {
        1
    }

    fn substitute(&self, lookup: &StageLookup, text: &mut Buffer) -> Result<(), ShaperError> {
        self.apply(lookup, text)?;
        text.with_glyphs_mut(|glyphs| {
            let marks = glyphs
                .iter_mut()
                .filter(|glyph| glyph.glyph_id == ABBREVIATION_MARK);
            for mark in marks {
                mark.glyph_props = GlyphProps::MULTIPLIED;
                mark.lig_props = LigProps(1);
            }
        });
        Ok(())
    }

    fn position(&self, lookup: &StageLookup, text: &mut Buffer) -> Result<(), ShaperError> {
        self.apply(lookup, text)
    }

    fn finish_positions(&self, _: &mut Buffer) {}
}

const SETTINGS: ShapeSettings = ShapeSettings {
    normalize: NormalizeSettings {
        rounds: sengadlit::ot_shape_normalize::Rounds::AsCode,
        invisible_glyph: None,
        draws_selectors: false,
    },
    ignorables: DefaultIgnorables::Hide,
};

fn plan_of(script: Script, direction: Direction, font: &TestFont) -> EnginePlan {
    EnginePlan::new(Global, Some(script), direction, font, font, &[]).unwrap()
}

fn run_shape(plan: &EnginePlan, font: &TestFont, text: &mut Buffer) -> Result<(), CallError> {
    shape(plan, &SETTINGS, font, &UnicodeTables, font, text)
}

fn run_substitutions(
    plan: &EnginePlan,
    font: &TestFont,
    text: &mut Buffer,
) -> Result<(), CallError> {
    let settings = &SETTINGS.normalize;
    substitute_text(plan, settings, font, &UnicodeTables, font, text)
}

fn numbers(text: &Buffer) -> Vec<u32> {
    text.iter().map(|glyph| glyph.glyph_id).collect()
}

const HEBREW: &str = "\u{5D0}\u{5D1}\u{5D2}";

/// A buffer as it is created says from left to right, and no script: the plan's are in force.
#[test]
fn a_plan_has_the_direction_and_the_script() {
    let font = TestFont::of(500);
    for (direction, drawn) in [
        (Direction::RightToLeft, [0x5D2, 0x5D1, 0x5D0]),
        (Direction::LeftToRight, [0x5D0, 0x5D1, 0x5D2]),
    ] {
        let plan = plan_of(script::HEBREW, direction, &font);
        for own in [
            Direction::LeftToRight,
            Direction::RightToLeft,
            Direction::TopToBottom,
        ] {
            let mut text = Buffer::from(HEBREW);
            text.set_direction(own);
            assert_eq!(run_shape(&plan, &font, &mut text), Ok(()));
            assert_eq!(numbers(&text), drawn);
            assert_eq!((text.direction(), text.script()), (own, None));
        }
    }
}

/// Vertical text has vertical advances by the plan's direction, too.
#[test]
fn a_plan_has_the_direction_of_advances() {
    let font = TestFont::of(500);
    let plan = plan_of(script::HEBREW, Direction::RightToLeft, &font);
    let mut text = Buffer::from(HEBREW);
    text.set_direction(Direction::TopToBottom);
    assert_eq!(run_shape(&plan, &font, &mut text), Ok(()));
    assert!(
        text.positions()
            .iter()
            .all(|at| at.x_advance == 500 && at.y_advance == 0)
    );
}

/// Hebrew in a text from left to right is turned for the lookups. The buffer's direction is what it was, so that the next text
/// comes out in its order.
#[test]
fn substitutions_leave_the_direction() {
    let font = TestFont::of(500);
    let plan = plan_of(script::HEBREW, Direction::LeftToRight, &font);
    let mut text = Buffer::from(HEBREW);
    assert_eq!(run_substitutions(&plan, &font, &mut text), Ok(()));
    assert_eq!(numbers(&text), [0x5D2, 0x5D1, 0x5D0]);
    assert_eq!(
        (text.direction(), text.script()),
        (Direction::LeftToRight, None)
    );
    text.truncate(0);
    text.push_str(HEBREW).unwrap();
    assert_eq!(run_shape(&plan, &font, &mut text), Ok(()));
    assert_eq!(numbers(&text), [0x5D0, 0x5D1, 0x5D2]);
}

/// The parts take those of the plan, too: lookups see these, and afterwards the buffer has its own.
#[test]
fn parts_leave_the_direction_and_the_script() {
    let font = TestFont::of(500);
    let syriac = Some(script::SYRIAC);
    let plan = plan_of(script::SYRIAC, Direction::RightToLeft, &font);
    let own = |text: &Buffer| (text.direction(), text.script());
    let created = (Direction::LeftToRight, None);
    let text_plan = TextPlan {
        shaper: plan.shaper(),
        plan: plan.plan(),
        direction: plan.direction(),
        masks: plan.masks(),
        ranges: plan.ranges(),
    };
    let stages = StagePlan {
        plan: plan.plan(),
        direction: plan.direction(),
        stages: plan.stages(),
        lookups: plan.lookups(),
    };
    let mut text = Buffer::from("\u{710}\u{712}");
    let settings = &SETTINGS.normalize;
    assert_eq!(
        prepare_text(&text_plan, settings, &font, &UnicodeTables, &mut text),
        Ok(())
    );
    assert_eq!(own(&text), created);
    assert_eq!(numbers(&text), [0x710, 0x712]);
    assert_eq!(run_stages(&stages, &font, &font, &mut text), Ok(()));
    assert_eq!(own(&text), created);
    assert_eq!(*font.seen.borrow(), [(Direction::RightToLeft, syriac)]);
}

/// Also where a part is refused.
#[test]
fn refused_parts_leave_the_direction_and_the_script() {
    let font = TestFont::of(500);
    let plan = plan_of(script::HEBREW, Direction::LeftToRight, &font);
    let text_plan = TextPlan {
        shaper: plan.shaper(),
        plan: plan.plan(),
        direction: plan.direction(),
        masks: plan.masks(),
        ranges: plan.ranges(),
    };
    let mut text = Buffer::from("\u{FB2A}");
    text.set_max_len(1);
    let settings = NormalizeSettings::default();
    let refused = prepare_text(&text_plan, &settings, &font, &UnicodeTables, &mut text);
    assert_eq!(refused, Err(CallError::Refused(ShaperError::TooLong)));
    assert_eq!(
        (text.direction(), text.script()),
        (Direction::LeftToRight, None)
    );
}

/// Lookups that panic where they note a glyph leave no text with some of its glyphs noted.
#[test]
fn notes_that_panic_leave_no_half() {
    let font = TestFont::of(500);
    let plan = plan_of(script::HEBREW, Direction::RightToLeft, &font);
    for notes in 0..=HEBREW.chars().count() {
        font.notes.set(notes);
        let mut text = Buffer::from(HEBREW);
        let call = panic::AssertUnwindSafe(|| run_substitutions(&plan, &font, &mut text));
        let caught = panic::catch_unwind(call);
        assert_eq!(caught.is_ok(), notes == HEBREW.chars().count());
        assert_eq!(text.is_empty(), caught.is_err());
    }
}

/// Whichever question is the one that panics: the glyphs have positions or none has, and the buffer, with its settings set
/// again, shapes the next text as a new one does.
#[test]
fn a_buffer_is_used_again_after_a_panic() {
    let font = TestFont::of(500);
    for (script, text) in [
        (script::HEBREW, "\u{5D0}\u{5B7}\u{FB2A}\u{2003}\u{200D}("),
        (script::SYRIAC, "\u{70F}\u{712}\u{713}\u{715}"),
    ] {
        let plan = plan_of(script, Direction::RightToLeft, &font);
        let mut whole = Buffer::from(text);
        assert_eq!(run_shape(&plan, &font, &mut whole), Ok(()));
        let mut panics = 0;
        loop {
            font.answers.set(panics);
            let mut again = Buffer::from(text);
            let call = panic::AssertUnwindSafe(|| run_shape(&plan, &font, &mut again));
            let caught = panic::catch_unwind(call);
            font.answers.set(usize::MAX);
            if caught.is_ok() {
                break;
            }
            assert!([0, again.len()].contains(&again.positions_len()));
            again.clear();
            again.set_settings(&Buffer::default().settings());
            again.push_str(text).unwrap();
            assert_eq!(run_shape(&plan, &font, &mut again), Ok(()));
            assert_eq!(again, whole);
            panics += 1;
        }
        assert!(panics > 15, "{panics}");
    }
}

/// Refused before the lookups, by one of GSUB, by one of GPOS, and where a mark stretches: the text is as it was, with its
/// settings, and can be shaped again.
#[test]
fn a_refused_text_is_given_back() {
    let syriac = "\u{70F}\u{712}\u{713}\u{714}\u{715}";
    let refusal = |error| Err(CallError::Refused(error));
    let (memory, too_long) = (refusal(ShaperError::Memory), refusal(ShaperError::TooLong));
    for (font, direction, expected) in [
        (TestFont::refusing(1), Direction::LeftToRight, &memory),
        (TestFont::refusing(2), Direction::LeftToRight, &memory),
        (TestFont::of(500), Direction::RightToLeft, &too_long),
    ] {
        let plan = plan_of(script::SYRIAC, direction, &font);
        let mut text = Buffer::from(syriac);
        text.set_max_len(100);
        text.set_direction(Direction::TopToBottom);
        text.set_script(Some(script::ARABIC));
        let before = text.try_clone().unwrap();
        assert_eq!(run_shape(&plan, &font, &mut text), *expected);
        assert_eq!(text, before);
        assert_eq!(text.has_stch(), before.has_stch());
    }
    let font = TestFont::refusing(1);
    let plan = plan_of(script::SYRIAC, Direction::LeftToRight, &font);
    let mut text = Buffer::from(syriac);
    let before = text.try_clone().unwrap();
    assert_eq!(run_substitutions(&plan, &font, &mut text), memory);
    assert_eq!(text, before);
    // a letter that comes apart, in a buffer without room for it
    let font = TestFont::of(500);
    let plan = plan_of(script::HEBREW, Direction::LeftToRight, &font);
    let mut text = Buffer::from("\u{5D0}\u{FB2A}");
    text.set_max_len(2);
    let before = text.try_clone().unwrap();
    assert_eq!(run_substitutions(&plan, &font, &mut text), too_long);
    assert_eq!(text, before);
    assert_eq!(run_shape(&plan, &font, &mut text), too_long);
    assert_eq!(text, before);
}

/// Tiles of 1 under letters of this advance, of which the last may be wider, in a buffer as it is created.
fn stretched(letters: usize, letter: i32, last_letter: i32) -> (Result<(), CallError>, Buffer) {
    let font = TestFont {
        last_letter,
        ..TestFont::of(letter)
    };
    let plan = plan_of(script::SYRIAC, Direction::RightToLeft, &font);
    let word = "\u{712}".repeat(letters - 1);
    let mut text = Buffer::from(&*format!("\u{70F}{word}\u{715}"));
    let before = text.try_clone().unwrap();
    let ended = run_shape(&plan, &font, &mut text);
    if ended.is_err() {
        assert_eq!(text, before);
    }
    assert_eq!(text.max_len(), Buffer::MAX_LEN_DEFAULT);
    (ended, text)
}

/// Where no greatest length is set a text gets 256 times as long, and 65,536 at least, as in HarfBuzz 12.
#[test]
fn a_stretch_is_bounded_by_the_text() {
    let too_long = Err(CallError::Refused(ShaperError::TooLong));
    assert_eq!(stretched(4, 10_000_000, 10_000_000).0, too_long);
    // five characters: 4 letters and 65,532 tiles
    let (ended, text) = stretched(4, 16_383, 16_383);
    assert_eq!((ended, text.len()), (Ok(()), 65_536));
    assert_eq!(stretched(4, 16_383, 16_384).0, too_long);
    // 300 characters: 299 letters and 76,501 tiles
    let (ended, text) = stretched(299, 255, 511);
    assert_eq!((ended, text.len()), (Ok(()), 76_800));
    assert_eq!(stretched(299, 255, 512).0, too_long);
}

/// A length that the caller sets holds, be it less or more.
#[test]
fn a_stretch_is_bounded_by_the_callers_length() {
    let font = TestFont::of(25_000);
    let plan = plan_of(script::SYRIAC, Direction::RightToLeft, &font);
    let too_long = Err(CallError::Refused(ShaperError::TooLong));
    for (max_len, expected) in [(100_003, &too_long), (100_004, &Ok(()))] {
        let mut text = Buffer::from("\u{70F}\u{712}\u{713}\u{714}\u{715}");
        text.set_max_len(max_len);
        assert_eq!(run_shape(&plan, &font, &mut text), *expected);
        assert_eq!(text.max_len(), max_len);
    }
}
