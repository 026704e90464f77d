// Generated from crates/opentype_face/src/lookup.rt by rust/erase; edit the source.

//! The lookups of GSUB and GPOS.

use crate::generated::opentype_face::bytes::{offset16, offset32, table_at, u16_at};

/// A lookup's table.
///
/// <details><summary>Contract</summary>
///
/// # Contract
///
/// ```text
/// ensures { result.now ≡ lookup_in table.now index }
/// ```
///
/// - `lookup_in`: `crates/opentype_face/specs/Lookups.antt`
///
/// </details>
#[inline]
pub fn lookup(table: &[u8], index: u16) -> &[u8] {
    let list = table_at(table, offset16(table, 8));
    if index >= u16_at(list, 0) {
        return &[];
    }
    table_at(list, offset16(list, 2 + usize::from(index) * 2))
}

/// How many of a lookup's subtables are read at most. Real fonts have a few hundred; a font whose bytes
/// are spoilt could claim 65,535, which would be looked at for each glyph.
const MOST_SUBTABLES: u16 = 4096;

/// The last type of lookups, which GPOS alone has.
const LAST_TYPE: u16 = 9;

/// How many subtables a lookup has: none if OpenType has no lookups of its type, and those behind the
/// first 4,096 left out.
///
/// <details><summary>Contract</summary>
///
/// # Contract
///
/// ```text
/// ensures { result ≡ subtables_in lookup.now }
/// ```
///
/// - `subtables_in`: `crates/opentype_face/specs/Lookups.antt`
///
/// </details>
#[inline]
pub fn subtable_count(lookup: &[u8]) -> u16 {
    let kind = u16_at(lookup, 0);
    if kind == 0 || kind > LAST_TYPE {
        return 0;
    }
    u16_at(lookup, 4).min(MOST_SUBTABLES)
}

/// How many rules of a set are read at most, and how many ligatures of one.
const MOST_RULES: u16 = 4096;

/// How many rules or ligatures a set has, those behind the first 4,096 left out.
///
/// <details><summary>Contract</summary>
///
/// # Contract
///
/// ```text
/// ensures { result ≡ rule_count_in set.now }
/// ```
///
/// - `rule_count_in`: `crates/opentype_face/specs/Lookups.antt`
///
/// </details>
#[inline]
pub fn rule_count(set: &[u8]) -> u16 {
    u16_at(set, 0).min(MOST_RULES)
}

/// A lookup's flag.
///
/// <details><summary>Contract</summary>
///
/// # Contract
///
/// ```text
/// ensures { result ≡ u16_in lookup.now 2 }
/// ```
///
/// - `u16_in`: `crates/opentype_face/specs/Bytes.antt`
///
/// </details>
#[inline]
pub fn lookup_flag(lookup: &[u8]) -> u16 {
    u16_at(lookup, 2)
}

/// A subtable of a lookup; `extension` is the type whose subtables name another one.
///
/// <details><summary>Contract</summary>
///
/// # Contract
///
/// ```text
/// ensures { result.now ≡ subtable_in extension lookup.now i }
/// ```
///
/// - `subtable_in`: `crates/opentype_face/specs/Lookups.antt`
///
/// </details>
#[inline]
pub fn subtable(extension: u16, lookup: &[u8], i: u16) -> &[u8] {
    let bytes = table_at(lookup, offset16(lookup, 6 + usize::from(i) * 2));
    if u16_at(lookup, 0) == extension {
        table_at(bytes, offset32(bytes, 4))
    } else {
        bytes
    }
}

/// The type of a subtable.
///
/// <details><summary>Contract</summary>
///
/// # Contract
///
/// ```text
/// ensures { result ≡ type_in extension lookup.now i }
/// ```
///
/// - `type_in`: `crates/opentype_face/specs/Lookups.antt`
///
/// </details>
#[inline]
pub fn subtable_type(extension: u16, lookup: &[u8], i: u16) -> u16 {
    let kind = u16_at(lookup, 0);
    if kind != extension {
        return kind;
    }
    u16_at(
        table_at(lookup, offset16(lookup, 6 + usize::from(i) * 2)),
        2,
    )
}

/// The number of a lookup's set of marks.
///
/// <details><summary>Contract</summary>
///
/// # Contract
///
/// ```text
/// ensures { result ≡ mark_set_in lookup.now }
/// ```
///
/// - `mark_set_in`: `crates/opentype_face/specs/Lookups.antt`
///
/// </details>
#[inline]
pub fn mark_set(lookup: &[u8]) -> u16 {
    u16_at(lookup, 6 + offset16(lookup, 4) * 2)
}
