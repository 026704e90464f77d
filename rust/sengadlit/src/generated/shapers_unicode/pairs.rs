// Generated from crates/shapers_unicode/src/pairs.rt by rust/erase; edit the source.

//! Canonical decompositions and compositions, and mirrored characters.

use crate::generated::shapers_unicode::table::{number_of, string_of};
use crate::generated::shapers_unicode::tables::composition::{
    COMPOSITION_BLOCKS, COMPOSITION_CHARS, COMPOSITION_INDEX, COMPOSITION_OFFSETS, COMPOSITION_TAIL,
};
use crate::generated::shapers_unicode::tables::mapping::{
    MAPPING_BLOCKS, MAPPING_CHARS, MAPPING_INDEX, MAPPING_OFFSETS, MAPPING_TAIL,
};
use crate::generated::shapers_unicode::tables::mirrored::{
    MIRRORED_BLOCKS, MIRRORED_CHARS, MIRRORED_INDEX, MIRRORED_OFFSETS, MIRRORED_TAIL,
};

// Hangul's first syllable, the first jamo of each kind (for T, the place before), and how many
// syllables there are for an L, and for an LV.
const S_BASE: u32 = 0xAC00;

const L_BASE: u32 = 0x1100;

const V_BASE: u32 = 0x1161;

const T_BASE: u32 = 0x11A7;

const N_COUNT: u32 = 588;

const T_COUNT: u32 = 28;

/// What a character decomposes to in one step by Unicode's canonical decomposition. A character that
/// decomposes to one other has U+0000 beside it.
///
/// <details><summary>Contract</summary>
///
/// # Contract
///
/// ```text
/// ensures { result ≡ decomposed ab }
/// ```
///
/// - `decomposed`: `crates/shapers_unicode/specs/Pairs.antt`
///
/// </details>
#[inline]
pub fn decompose(ab: char) -> Option<(char, char)> {
    if is_syllable(ab as u32) {
        return syllable_parts(ab as u32);
    }
    pair_of(mapping_of(ab))
}

/// The character that two characters compose to by Unicode's canonical composition.
///
/// <details><summary>Contract</summary>
///
/// # Contract
///
/// ```text
/// ensures { result ≡ composed a b }
/// ```
///
/// - `composed`: `crates/shapers_unicode/specs/Pairs.antt`
///
/// </details>
pub fn compose(a: char, b: char) -> Option<char> {
    if are_l_and_v(a as u32, b as u32) {
        return compose_l_and_v(a as u32, b as u32);
    }
    if are_lv_and_t(a as u32, b as u32) {
        return compose_lv_and_t(a as u32, b as u32);
    }
    composite(a, b)
}

/// The mirrored character of a character: what stands for it in text from right to left.
///
/// <details><summary>Contract</summary>
///
/// # Contract
///
/// ```text
/// ensures { result ≡ mirrored c }
/// ```
///
/// - `mirrored`: `crates/shapers_unicode/specs/Pairs.antt`
///
/// </details>
#[inline]
pub fn mirrored(c: char) -> Option<char> {
    first_or_none(mirrored_string_of(c))
}

/// Whether it is a syllable of Hangul.
#[inline]
fn is_syllable(c: u32) -> bool {
    matches!(c, 0xAC00..=0xD7A3)
}

/// A syllable of Hangul in one step: L and V, or LV and T.
fn syllable_parts(s: u32) -> Option<(char, char)> {
    let place = s - S_BASE;
    if place % T_COUNT == 0 {
        pair(L_BASE + place / N_COUNT, V_BASE + place % N_COUNT / T_COUNT)
    } else {
        pair(s - place % T_COUNT, T_BASE + place % T_COUNT)
    }
}

/// Two characters below the surrogates.
fn pair(a: u32, b: u32) -> Option<(char, char)> {
    Some((char::from_u32(a)?, char::from_u32(b)?))
}

/// Whether they are a leading and a vowel jamo that combine.
fn are_l_and_v(a: u32, b: u32) -> bool {
    matches!(a, 0x1100..=0x1112) && matches!(b, 0x1161..=0x1175)
}

/// Their syllable.
fn compose_l_and_v(l: u32, v: u32) -> Option<char> {
    char::from_u32(S_BASE + (l - L_BASE) * N_COUNT + (v - V_BASE) * T_COUNT)
}

/// Whether they are a syllable without a trailing jamo, and that.
fn are_lv_and_t(a: u32, b: u32) -> bool {
    is_syllable(a) && (a - S_BASE) % T_COUNT == 0 && matches!(b, 0x11A8..=0x11C2)
}

/// Their syllable.
fn compose_lv_and_t(lv: u32, t: u32) -> Option<char> {
    char::from_u32(lv + (t - T_BASE))
}

/// A mapping of one or two characters as a pair.
#[inline]
fn pair_of(mapping: &[char]) -> Option<(char, char)> {
    if mapping.len() == 1 {
        return Some((mapping[0], '\0'));
    }
    if mapping.len() == 2 {
        return Some((mapping[0], mapping[1]));
    }
    None
}

/// The first character, if there is one.
#[inline]
fn first_or_none(string: &[char]) -> Option<char> {
    if string.len() == 0 {
        return None;
    }
    Some(string[0])
}

/// The primary composite of two characters.
fn composite(a: char, b: char) -> Option<char> {
    let pairs = compositions_of(a);
    let mut i = 0;
    while i + 1 < pairs.len() {
        if pairs[i] == b {
            return Some(pairs[i + 1]);
        }
        i += 2;
    }
    None
}

/// The canonical mapping of a character. Most have none, which is the string with the number 0.
#[inline]
fn mapping_of(c: char) -> &'static [char] {
    let number = number_of(&MAPPING_INDEX, &MAPPING_BLOCKS, &MAPPING_TAIL, c as u32);
    if number == 0 {
        return &[];
    }
    string_of(&MAPPING_OFFSETS, &MAPPING_CHARS, number)
}

/// What follows a character and composes with it, each with the composite.
fn compositions_of(c: char) -> &'static [char] {
    let number = number_of(
        &COMPOSITION_INDEX,
        &COMPOSITION_BLOCKS,
        &COMPOSITION_TAIL,
        c as u32,
    );
    string_of(&COMPOSITION_OFFSETS, &COMPOSITION_CHARS, number)
}

/// What a character is mirrored to: one character or none, which is the string with the number 0.
#[inline]
fn mirrored_string_of(c: char) -> &'static [char] {
    let number = number_of(&MIRRORED_INDEX, &MIRRORED_BLOCKS, &MIRRORED_TAIL, c as u32);
    if number == 0 {
        return &[];
    }
    string_of(&MIRRORED_OFFSETS, &MIRRORED_CHARS, number)
}
