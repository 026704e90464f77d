// Generated from crates/shapers_universal/src/ot_shaper_use/category.rt by rust/erase; edit the source.

//! The categories of the universal shaper; the numbers are those of HarfBuzz's tables, the names
//! those of the note on the Universal Shaping Engine.

/// Another character.
pub const O: u8 = 0;

/// A base.
pub const B: u8 = 1;

/// A number that is a base.
pub const N: u8 = 4;

/// A generic base, as the dotted circle.
pub const GB: u8 = 5;

/// The combining grapheme joiner.
pub const CGJ: u8 = 6;

/// A consonant written below the base.
pub const SUB: u8 = 11;

/// A halant, or virama.
pub const H: u8 = 12;

/// A halant of numbers.
pub const HN: u8 = 13;

/// The zero width non-joiner.
pub const ZWNJ: u8 = 14;

/// The word joiner.
pub const WJ: u8 = 16;

/// A reserved character.
pub const RSV: u8 = 17;

/// A repha: it goes behind the base.
pub const R: u8 = 18;

/// A symbol.
pub const S: u8 = 19;

/// A vowel before the base: it goes to the front.
pub const VPre: u8 = 22;

/// A vowel modifier before the base: it goes to the front.
pub const VMPre: u8 = 23;

/// A final consonant, above.
pub const FAbv: u8 = 24;

/// A final consonant, below.
pub const FBlw: u8 = 25;

/// A final consonant, behind.
pub const FPst: u8 = 26;

/// A medial consonant, above.
pub const MAbv: u8 = 27;

/// A medial consonant, below.
pub const MBlw: u8 = 28;

/// A medial consonant, behind.
pub const MPst: u8 = 29;

/// A medial consonant before the base.
pub const MPre: u8 = 30;

/// A consonant modifier, above.
pub const CMAbv: u8 = 31;

/// A consonant modifier, below.
pub const CMBlw: u8 = 32;

/// A vowel above the base.
pub const VAbv: u8 = 33;

/// A vowel below the base.
pub const VBlw: u8 = 34;

/// A vowel behind the base.
pub const VPst: u8 = 35;

/// A vowel modifier, above.
pub const VMAbv: u8 = 37;

/// A vowel modifier, below.
pub const VMBlw: u8 = 38;

/// A vowel modifier, behind.
pub const VMPst: u8 = 39;

/// A mark of symbols, above.
pub const SMAbv: u8 = 41;

/// A mark of symbols, below.
pub const SMBlw: u8 = 42;

/// A consonant with a stacker before it.
pub const CS: u8 = 43;

/// A stacker that isn't seen.
pub const IS: u8 = 44;

/// A modifier of finals, above.
pub const FMAbv: u8 = 45;

/// A modifier of finals, below.
pub const FMBlw: u8 = 46;

/// A modifier of finals, behind.
pub const FMPst: u8 = 47;

/// The Sakot of Tai Tham.
pub const Sk: u8 = 48;

/// A hieroglyph.
pub const G: u8 = 49;

/// A joiner of hieroglyphs.
pub const J: u8 = 50;

/// A sign before the base.
pub const SB: u8 = 51;

/// A sign behind the base.
pub const SE: u8 = 52;

/// A halant, or a vowel modifier.
pub const HVM: u8 = 53;

/// A mirror of hieroglyphs.
pub const HM: u8 = 54;

/// A rotation of hieroglyphs.
pub const HR: u8 = 55;
