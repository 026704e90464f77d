// Generated from crates/shapers_base/src/plan/ot_position_t.rt by rust/erase; edit the source.

//! The positions in an Indic syllable, in the order that they are sorted in (HarfBuzz's; OpenType's note on Indic scripts
//! has the order in words).

/// The front of the syllable.
pub const POS_START: u8 = 0;

/// A Ra that becomes the reph, with its halant.
pub const POS_RA_TO_BECOME_REPH: u8 = 1;

/// A matra before the base.
pub const POS_PRE_M: u8 = 2;

/// A consonant before the base, in half form.
pub const POS_PRE_C: u8 = 3;

/// The base consonant.
pub const POS_BASE_C: u8 = 4;

/// Behind the base.
pub const POS_AFTER_MAIN: u8 = 5;

/// A consonant or matra above the base.
pub const POS_ABOVE_C: u8 = 6;

/// Before the consonants below the base.
pub const POS_BEFORE_SUB: u8 = 7;

/// A consonant or matra below the base.
pub const POS_BELOW_C: u8 = 8;

/// Behind the consonants below the base.
pub const POS_AFTER_SUB: u8 = 9;

/// Before the consonants behind the base.
pub const POS_BEFORE_POST: u8 = 10;

/// A consonant or matra behind the base.
pub const POS_POST_C: u8 = 11;

/// Behind the consonants behind the base.
pub const POS_AFTER_POST: u8 = 12;

/// Syllable modifiers and Vedic signs.
pub const POS_SMVD: u8 = 13;

/// The end of the syllable.
pub const POS_END: u8 = 14;
