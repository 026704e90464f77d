// Generated from crates/shapers_base/src/plan/ot_category_t.rt by rust/erase; edit the source.

//! The categories of the Indic, Khmer and Myanmar shapers; names and numbers are those of HarfBuzz's tables, made from
//! Unicode's `Indic_Syllabic_Category`.

/// Another character.
pub const OT_X: u8 = 0;

/// A consonant.
pub const OT_C: u8 = 1;

/// An independent vowel; in Myanmar another letter that carries signs.
pub const OT_V: u8 = 2;

/// A nukta; in Myanmar and Khmer a dot or a sign that binds as one.
pub const OT_N: u8 = 3;

/// A halant, or virama; in Khmer the Coeng; in Myanmar the virama that stacks (1039).
pub const OT_H: u8 = 4;

/// The zero width non-joiner, 200C.
pub const OT_ZWNJ: u8 = 5;

/// The zero width joiner, 200D.
pub const OT_ZWJ: u8 = 6;

/// A dependent vowel, or matra.
pub const OT_M: u8 = 7;

/// A syllable modifier; in Myanmar visarga and the tones of Shan.
pub const OT_SM: u8 = 8;

/// A Vedic accent; in Myanmar the anusvara.
pub const OT_A: u8 = 9;

/// A Vedic sign: the number of `OT_A`.
pub const OT_VD: u8 = 9;

/// A character that stands for a base, as a digit or 00A0.
pub const OT_PLACEHOLDER: u8 = 10;

/// Another name of `OT_PLACEHOLDER`, the universal shaping engine's: a generic base.
pub const OT_GB: u8 = 10;

/// The dotted circle, 25CC.
pub const OT_DOTTEDCIRCLE: u8 = 11;

/// A register shifter (Khmer).
pub const OT_RS: u8 = 12;

/// A matra that stands behind post-base consonants.
pub const OT_MPst: u8 = 13;

/// A reph that has a character of its own (Malayalam).
pub const OT_Repha: u8 = 14;

/// The letter Ra: it may become a reph; in Khmer Ro, in Myanmar the letters of a Kinzi.
pub const OT_Ra: u8 = 15;

/// A medial consonant.
pub const OT_CM: u8 = 16;

/// A symbol, or avagraha.
pub const OT_Symbol: u8 = 17;

/// A consonant with a stacker before it.
pub const OT_CS: u8 = 18;

/// A vowel above the base.
pub const OT_VAbv: u8 = 20;

/// A vowel below the base.
pub const OT_VBlw: u8 = 21;

/// A vowel before the base: it goes to the front.
pub const OT_VPre: u8 = 22;

/// A vowel behind the base.
pub const OT_VPst: u8 = 23;

/// The robat and its like (Khmer).
pub const OT_Robatic: u8 = 25;

/// A sign that follows a base or a vowel (Khmer).
pub const OT_Xgroup: u8 = 26;

/// A sign that closes a syllable (Khmer).
pub const OT_Ygroup: u8 = 27;

/// The asat, 103A (Myanmar).
pub const OT_As: u8 = 32;

/// The medial Ha (Myanmar).
pub const OT_MH: u8 = 35;

/// The medial Ra: it goes before the base (Myanmar).
pub const OT_MR: u8 = 36;

/// The medial Wa (Myanmar).
pub const OT_MW: u8 = 37;

/// The medial Ya (Myanmar).
pub const OT_MY: u8 = 38;

/// A tone of Pwo and other languages (Myanmar).
pub const OT_PT: u8 = 39;

/// A variation selector.
pub const OT_VS: u8 = 40;

/// The medial La of Mon (Myanmar).
pub const OT_ML: u8 = 41;

/// An independent vowel (Myanmar): the number of `OT_V`.
pub const IV: u8 = 2;
