// Generated from crates/opentype_face/src/classes.rt by rust/erase; edit the source.

//! GDEF: the classes of glyphs, and sets of marks.

use crate::generated::opentype_face::bytes::{offset16, offset32, table_at, u16_at};
use crate::generated::opentype_face::glyph_sets::{class, coverage};

/// Whether the font has classes.
///
/// <details><summary>Contract</summary>
///
/// # Contract
///
/// ```text
/// ensures { result ≡ has_classes gdef.now }
/// ```
///
/// - `has_classes`: `crates/opentype_face/specs/Classes.antt`
///
/// </details>
#[inline]
pub fn has_glyph_classes(gdef: &[u8]) -> bool {
    u16_at(gdef, 4) != 0
}

/// The class of a glyph: bit 1 a base, 2 a ligature, 3 a mark, and its class above the low byte.
///
/// <details><summary>Contract</summary>
///
/// # Contract
///
/// ```text
/// ensures { result ≡ props_of gdef.now glyph }
/// ```
///
/// - `props_of`: `crates/opentype_face/specs/Classes.antt`
///
/// </details>
#[inline]
pub fn glyph_props(gdef: &[u8], glyph: u16) -> u16 {
    match class(table_at(gdef, offset16(gdef, 4)), glyph) {
        1 => 2,
        2 => 4,
        3 => {
            let mark = class(table_at(gdef, offset16(gdef, 10)), glyph);
            8 + mark % 256 * 256
        }
        _ => 0,
    }
}

fn mark_sets(gdef: &[u8]) -> &[u8] {
    if u16_at(gdef, 2) < 2 {
        return &[];
    }
    let sets = table_at(gdef, offset16(gdef, 12));
    if u16_at(sets, 0) == 1 { sets } else { &[] }
}

/// How many sets of marks there are.
///
/// <details><summary>Contract</summary>
///
/// # Contract
///
/// ```text
/// ensures { result ≡ mark_set_count_in gdef.now }
/// ```
///
/// - `mark_set_count_in`: `crates/opentype_face/specs/Classes.antt`
///
/// </details>
#[inline]
pub fn mark_set_count(gdef: &[u8]) -> u16 {
    u16_at(mark_sets(gdef), 2)
}

/// Whether a set of marks has a glyph.
///
/// <details><summary>Contract</summary>
///
/// # Contract
///
/// ```text
/// ensures { result ≡ is_in_set gdef.now set glyph }
/// ```
///
/// - `is_in_set`: `crates/opentype_face/specs/Classes.antt`
///
/// </details>
#[inline]
pub fn is_in_mark_set(gdef: &[u8], set: u16, glyph: u16) -> bool {
    let sets = mark_sets(gdef);
    if set >= u16_at(sets, 2) {
        return false;
    }
    let offset = offset32(sets, 4 + usize::from(set) * 4);
    coverage(table_at(sets, offset), glyph).is_some()
}
