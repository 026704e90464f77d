// Generated from crates/shapers_unicode/src/properties.rt by rust/erase; edit the source.

//! Properties of characters.

use crate::generated::shapers_base::plan::{Category, JoiningType, Position};
use crate::generated::shapers_buffer::buffer::GeneralCategory;
use crate::generated::shapers_unicode::table::value_of;
use crate::generated::shapers_unicode::tables::character::{
    CHARACTER_BLOCKS, CHARACTER_INDEX, CHARACTER_KINDS, CHARACTER_TAIL,
};
use crate::generated::shapers_unicode::tables::indic::{
    INDIC_BLOCKS, INDIC_INDEX, INDIC_PAIRS, INDIC_TAIL,
};
use crate::generated::shapers_unicode::tables::joining::{
    JOINING_BLOCKS, JOINING_INDEX, JOINING_TAIL,
};
use crate::generated::shapers_unicode::tables::pictographic::{
    PICTOGRAPHIC_BLOCKS, PICTOGRAPHIC_INDEX, PICTOGRAPHIC_TAIL,
};
use crate::generated::shapers_unicode::tables::universal::{
    UNIVERSAL_BLOCKS, UNIVERSAL_INDEX, UNIVERSAL_TAIL,
};

/// What a glyph keeps of a character that is always drawn, in one number that one look-up tells: the
/// general category, whether a font need not draw the character, whether it is a mark, and its class.
/// A number that is no character has those of U+FFFD.
// (in a caller's walk, as a call for each character takes longer than the look-up)
///
/// <details><summary>Contract</summary>
///
/// # Contract
///
/// ```text
/// ensures { result ≡ character_bits (character_of c) }
/// ```
///
/// - `character_of`: `crates/shapers_buffer/specs/Settings.antt`
/// - `character_bits`: `crates/shapers_unicode/specs/CharacterBits.antt`
///
/// </details>
#[inline(always)]
pub fn character_bits(c: u32) -> u16 {
    // (one test for most characters, which are before the surrogates)
    if c < 0xD800 {
        bits_at(c)
    } else {
        bits_beyond(c)
    }
}

// The same of a number beyond them.
// (a call, so that its test isn't made for all)
#[inline(never)]
fn bits_beyond(c: u32) -> u16 {
    bits_at(char::from_u32(c).unwrap_or(char::REPLACEMENT_CHARACTER) as u32)
}

// The same of a code point.
#[inline(always)]
fn bits_at(c: u32) -> u16 {
    let kind = value_of(&CHARACTER_INDEX, &CHARACTER_BLOCKS, &CHARACTER_TAIL, c);
    CHARACTER_KINDS[kind as usize]
}

/// The general category of a character.
///
/// <details><summary>Contract</summary>
///
/// # Contract
///
/// ```text
/// ensures { result ≡ category_of_character c }
/// ```
///
/// - `category_of_character`: `crates/shapers_unicode/specs/General.antt`
///
/// </details>
#[inline]
pub fn general_category(c: char) -> GeneralCategory {
    let number = bits_at(c as u32) % 32;
    GeneralCategory::from_number_or_unassigned(number as u8)
}

/// How a character joins its neighbours.
///
/// <details><summary>Contract</summary>
///
/// # Contract
///
/// ```text
/// ensures { result ≡ joining_type c }
/// ```
///
/// - `joining_type`: `crates/shapers_unicode/specs/Joining.antt`
///
/// </details>
pub fn joining_type(c: char) -> JoiningType {
    let number = value_of(&JOINING_INDEX, &JOINING_BLOCKS, &JOINING_TAIL, c as u32);
    JoiningType::from_number(number).unwrap_or(JoiningType::U)
}

/// The class by which a mark is ordered: its canonical combining class as HarfBuzz changes it.
///
/// <details><summary>Contract</summary>
///
/// # Contract
///
/// ```text
/// ensures { result ≡ modified_class c }
/// ```
///
/// - `modified_class`: `crates/shapers_unicode/specs/Classes.antt`
///
/// </details>
#[inline]
pub fn modified_combining_class(c: char) -> u8 {
    (bits_at(c as u32) / 256) as u8
}

/// Whether a font need not draw a character: Unicode's default ignorable characters but Hangul's fillers
/// and Duployan's format controls.
///
/// <details><summary>Contract</summary>
///
/// # Contract
///
/// ```text
/// ensures { result ≡ default_ignorable c }
/// ```
///
/// - `default_ignorable`: `crates/shapers_unicode/specs/Ignorable.antt`
///
/// </details>
#[inline]
pub fn is_default_ignorable(c: char) -> bool {
    bits_at(c as u32) / 32 % 2 == 1
}

/// The general category of a character, the class by which a mark is ordered, and whether a font need
/// not draw the character: all that one look-up tells.
// (in a caller's walk, as a call for each character takes longer than the look-up)
///
/// <details><summary>Contract</summary>
///
/// # Contract
///
/// ```text
/// ensures { result ≡ (category_of_character c, modified_class c, default_ignorable c) }
/// ```
///
/// - `modified_class`: `crates/shapers_unicode/specs/Classes.antt`
/// - `category_of_character`: `crates/shapers_unicode/specs/General.antt`
/// - `default_ignorable`: `crates/shapers_unicode/specs/Ignorable.antt`
///
/// </details>
#[inline(always)]
pub fn character_kind(c: char) -> (GeneralCategory, u8, bool) {
    let bits = bits_at(c as u32);
    (
        GeneralCategory::from_number_or_unassigned((bits % 32) as u8),
        (bits / 256) as u8,
        bits / 32 % 2 == 1,
    )
}

/// Whether a character is a pictograph that may be part of an emoji sequence (`Extended_Pictographic`).
///
/// <details><summary>Contract</summary>
///
/// # Contract
///
/// ```text
/// ensures { result ≡ extended_pictographic c }
/// ```
///
/// - `extended_pictographic`: `crates/shapers_unicode/specs/Pictographic.antt`
///
/// </details>
pub fn is_extended_pictographic(c: char) -> bool {
    value_of(
        &PICTOGRAPHIC_INDEX,
        &PICTOGRAPHIC_BLOCKS,
        &PICTOGRAPHIC_TAIL,
        c as u32,
    ) == 1
}

/// The category of a character in the universal shaper.
///
/// <details><summary>Contract</summary>
///
/// # Contract
///
/// ```text
/// ensures { result ≡ universal_category c }
/// ```
///
/// - `universal_category`: `crates/shapers_unicode/specs/Universal.antt`
///
/// </details>
pub fn universal_category(c: u32) -> Category {
    value_of(&UNIVERSAL_INDEX, &UNIVERSAL_BLOCKS, &UNIVERSAL_TAIL, c)
}

/// The category and the position of a character in the Indic, Khmer and Myanmar shapers.
///
/// <details><summary>Contract</summary>
///
/// # Contract
///
/// ```text
/// ensures { result ≡ indic_categories c }
/// ```
///
/// - `indic_categories`: `crates/shapers_unicode/specs/Indic.antt`
///
/// </details>
pub fn indic_categories(c: u32) -> (Category, Position) {
    INDIC_PAIRS[value_of(&INDIC_INDEX, &INDIC_BLOCKS, &INDIC_TAIL, c) as usize]
}
