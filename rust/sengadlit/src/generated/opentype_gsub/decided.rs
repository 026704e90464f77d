// Generated from crates/opentype_gsub/src/decided.rt by rust/erase; edit the source.

//! Subtables that look at one glyph.

use crate::generated::opentype_face::bytes::{table_at, u16_at};
use crate::generated::opentype_face::glyph_sets::coverage;

/// The place of a glyph in the set that a subtable begins with.
///
/// <details><summary>Contract</summary>
///
/// # Contract
///
/// ```text
/// ensures { result ≡ covered_in bytes.now glyph }
/// ```
///
/// - `covered_in`: `crates/opentype_gsub/specs/Decided.antt`
///
/// </details>
#[inline]
pub fn covered(bytes: &[u8], glyph: u16) -> Option<u32> {
    coverage(table_at(bytes, usize::from(u16_at(bytes, 2))), glyph)
}

/// One glyph for another, by a subtable of type 1.
///
/// <details><summary>Contract</summary>
///
/// # Contract
///
/// ```text
/// ensures { result ≡ single_in bytes.now glyph }
/// ```
///
/// - `single_in`: `crates/opentype_gsub/specs/Decided.antt`
///
/// </details>
pub fn single(bytes: &[u8], glyph: u16) -> Option<u16> {
    single_at(bytes, glyph, covered(bytes, glyph))
}

/// The same by the place of the glyph in the set that the subtable begins with.
#[inline]
pub(crate) fn single_at(bytes: &[u8], glyph: u16, place: Option<u32>) -> Option<u16> {
    let i = place?;
    match u16_at(bytes, 0) {
        1 => Some(((u32::from(glyph) + u32::from(u16_at(bytes, 4))) % 65536) as u16),
        2 => {
            if i < u32::from(u16_at(bytes, 4)) {
                Some(u16_at(bytes, 6 + i as usize * 2))
            } else {
                None
            }
        }
        _ => None,
    }
}

/// The table that a subtable of type 2, 3 or 4 has for a glyph.
///
/// <details><summary>Contract</summary>
///
/// # Contract
///
/// ```text
/// ensures { option_map (λ set. set.now) result ≡ set_for_glyph bytes.now glyph }
/// ```
///
/// - `set_for_glyph`: `crates/opentype_gsub/specs/Decided.antt`
///
/// </details>
pub fn set_of(bytes: &[u8], glyph: u16) -> Option<&[u8]> {
    set_by(bytes, covered(bytes, glyph))
}

/// The same by the place of the glyph in the set that the subtable begins with.
#[inline]
pub(crate) fn set_by(bytes: &[u8], place: Option<u32>) -> Option<&[u8]> {
    if u16_at(bytes, 0) != 1 {
        return None;
    }
    let i = place?;
    if i < u32::from(u16_at(bytes, 4)) {
        Some(table_at(
            bytes,
            usize::from(u16_at(bytes, 6 + i as usize * 2)),
        ))
    } else {
        None
    }
}

/// The alternate that a value chooses, from 1, by a subtable of type 3.
///
/// <details><summary>Contract</summary>
///
/// # Contract
///
/// ```text
/// ensures { result ≡ alternate_in bytes.now glyph value }
/// ```
///
/// - `alternate_in`: `crates/opentype_gsub/specs/Decided.antt`
///
/// </details>
pub fn alternate(bytes: &[u8], glyph: u16, value: u32) -> Option<u16> {
    alternate_at(value, set_of(bytes, glyph))
}

/// The same by the table that the subtable has for the glyph.
#[inline]
pub(crate) fn alternate_at(value: u32, set: Option<&[u8]>) -> Option<u16> {
    let set = set?;
    if value == 0 || value > u32::from(u16_at(set, 0)) {
        None
    } else {
        Some(u16_at(set, value as usize * 2))
    }
}
