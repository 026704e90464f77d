// Generated from crates/opentype_face/src/glyph_sets.rt by rust/erase; edit the source.

//! Sets of glyphs, and classes of glyphs.

use crate::generated::opentype_face::bytes::u16_at;
use crate::generated::opentype_face::ranges::{find_number, find_range};

/// The place of a glyph in a set, by its table.
// (always: in a face that isn't prepared it is asked of each subtable of a lookup, at each glyph)
///
/// <details><summary>Contract</summary>
///
/// # Contract
///
/// ```text
/// ensures { result ≡ coverage_in bytes.now glyph }
/// ```
///
/// - `coverage_in`: `crates/opentype_face/specs/Glyphs.antt`
///
/// </details>
#[inline(always)]
pub fn coverage(bytes: &[u8], glyph: u16) -> Option<u32> {
    let count = u16_at(bytes, 2);
    match u16_at(bytes, 0) {
        1 => find_number(bytes, count, glyph),
        2 => match find_range(bytes, count, glyph) {
            Some(i) => {
                let start = u16_at(bytes, 4 + i as usize * 6);
                let place = u16_at(bytes, 8 + i as usize * 6);
                Some(u32::from(place) + u32::from(glyph.saturating_sub(start)))
            }
            None => None,
        },
        _ => None,
    }
}

/// The class of a glyph, by its table; 0 where that gives none.
///
/// <details><summary>Contract</summary>
///
/// # Contract
///
/// ```text
/// ensures { result ≡ class_in bytes.now glyph }
/// ```
///
/// - `class_in`: `crates/opentype_face/specs/Glyphs.antt`
///
/// </details>
#[inline]
pub fn class(bytes: &[u8], glyph: u16) -> u16 {
    match u16_at(bytes, 0) {
        1 => {
            let start = u16_at(bytes, 2);
            if glyph >= start && glyph - start < u16_at(bytes, 4) {
                u16_at(bytes, 6 + usize::from(glyph - start) * 2)
            } else {
                0
            }
        }
        2 => {
            let count = u16_at(bytes, 2);
            match find_range(bytes, count, glyph) {
                Some(i) => u16_at(bytes, 8 + i as usize * 6),
                None => 0,
            }
        }
        _ => 0,
    }
}
