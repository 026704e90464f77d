//! Fonts and tables for tests.

use super::numbers::mixed;
use sengadlit::buffer::{GeneralCategory, Tag};
use sengadlit::font::{Font, GlyphId, Tables};
use sengadlit::plan::{Category, JoiningType, Position};
use std::cell::Cell;

/// The joining types.
pub const JOINING_TYPES: [JoiningType; 8] = [
    JoiningType::U,
    JoiningType::L,
    JoiningType::R,
    JoiningType::D,
    JoiningType::GroupAlaph,
    JoiningType::GroupDalathRish,
    JoiningType::T,
    JoiningType::X,
];

/// A font and tables whose results are random.
pub trait Lots {
    /// A number below `end` for a question.
    fn lot(&self, question: &[u64], end: u64) -> u64;
}

/// The same arguments give the same result.
#[derive(Clone, Copy, Debug)]
pub struct Steady(pub u64);

impl Lots for Steady {
    fn lot(&self, question: &[u64], end: u64) -> u64 {
        let lot = question.iter().fold(self.0, |lot, part| mixed(lot ^ part));
        lot % end
    }
}

/// The same arguments give another result each time.
#[derive(Debug)]
pub struct Changing(Cell<u64>);

impl Changing {
    pub fn new(seed: u64) -> Self {
        Changing(Cell::new(seed))
    }
}

impl Lots for Changing {
    fn lot(&self, _question: &[u64], end: u64) -> u64 {
        self.0.set(mixed(self.0.get()));
        self.0.get() % end
    }
}

/// A font of lots.
#[derive(Debug)]
pub struct LotFont<L>(pub L);

/// Tables of lots.
#[derive(Debug)]
pub struct LotTables<L>(pub L);

impl<L: Lots> Font for LotFont<L> {
    fn nominal_glyph(&self, c: u32) -> Option<GlyphId> {
        let lot = self.0.lot(&[1, u64::from(c)], 100);
        (lot < 60).then_some(GlyphId(lot as u16))
    }

    fn has_glyph(&self, c: u32) -> bool {
        self.nominal_glyph(c).is_some()
    }

    fn glyph_h_advance(&self, glyph: GlyphId) -> i32 {
        let ends = [i32::MAX, i32::MIN, -1, 0, 1];
        match self.0.lot(&[2, u64::from(glyph.0)], 500) as i32 {
            lot @ 0..5 => ends[lot as usize],
            lot => lot - 50,
        }
    }

    fn would_apply(&self, lookup: u16, glyphs: &[GlyphId], zero_context: bool) -> bool {
        let numbers = glyphs.iter().map(|glyph| u64::from(glyph.0));
        let sequence = numbers.fold(0, |sum, number| mixed(sum ^ number));
        let question = [3, u64::from(lookup), u64::from(zero_context), sequence];
        self.0.lot(&question, 2) == 0
    }

    fn has_feature(&self, tag: Tag) -> bool {
        self.0.lot(&[4, u64::from(u32::from_be_bytes(tag.0))], 2) == 0
    }
}

impl<L: Lots> Tables for LotTables<L> {
    fn joining_type(&self, c: char) -> JoiningType {
        JOINING_TYPES[self.0.lot(&[5, u64::from(c)], 8) as usize]
    }

    fn general_category(&self, c: char) -> GeneralCategory {
        GeneralCategory::ALL[self.0.lot(&[6, u64::from(c)], 30) as usize]
    }

    fn indic_categories(&self, c: u32) -> (Category, Position) {
        let lot = |number, end| self.0.lot(&[number, u64::from(c)], end) as u8;
        (lot(7, 45), lot(8, 17))
    }

    fn use_category(&self, c: u32) -> Category {
        self.0.lot(&[9, u64::from(c)], 58) as u8
    }

    fn compose(&self, a: char, b: char) -> Option<char> {
        char::from_u32(self.0.lot(&[10, u64::from(a), u64::from(b)], 0x1000) as u32)
    }

    fn decompose(&self, ab: char) -> Option<(char, char)> {
        let lot = self.0.lot(&[11, u64::from(ab)], 0x1000) as u32;
        char::from_u32(lot).zip(char::from_u32(lot + 1))
    }
}

/// A font with the dotted circle and the jamo, without syllables and lookups; every glyph has this
/// advance.
#[derive(Clone, Copy, Debug)]
pub struct PlainFont(pub i32);

impl Font for PlainFont {
    fn nominal_glyph(&self, c: u32) -> Option<GlyphId> {
        (c == 0x25CC || (0x1100..=0x11FF).contains(&c)).then_some(GlyphId(7))
    }

    fn has_glyph(&self, c: u32) -> bool {
        self.nominal_glyph(c).is_some()
    }

    fn glyph_h_advance(&self, _glyph: GlyphId) -> i32 {
        self.0
    }

    fn would_apply(&self, _lookup: u16, _glyphs: &[GlyphId], _zero_context: bool) -> bool {
        false
    }

    fn has_feature(&self, _tag: Tag) -> bool {
        false
    }
}

/// Tables in which every letter joins on both sides, and nothing composes.
#[derive(Clone, Copy, Debug)]
pub struct PlainTables;

impl Tables for PlainTables {
    fn joining_type(&self, _c: char) -> JoiningType {
        JoiningType::D
    }

    fn general_category(&self, _c: char) -> GeneralCategory {
        GeneralCategory::Lo
    }

    fn indic_categories(&self, _c: u32) -> (Category, Position) {
        (1, 4)
    }

    fn use_category(&self, _c: u32) -> Category {
        1
    }

    fn compose(&self, _a: char, _b: char) -> Option<char> {
        None
    }

    fn decompose(&self, _ab: char) -> Option<(char, char)> {
        None
    }
}
