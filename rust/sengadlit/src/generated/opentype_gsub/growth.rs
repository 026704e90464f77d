// Generated from crates/opentype_gsub/src/growth.rt by rust/erase; edit the source.

//! How much longer a lookup makes a text.

use crate::generated::opentype_face::lookup::{lookup, subtable_count, subtable_type};

/// How many times as long a lookup makes a text at most.
pub const GROWTH: usize = 65536;

// Whether a subtable of a type may add glyphs: one of sequences, or of rules, which apply lookups.
#[inline]
fn adds(kind: u16) -> bool {
    kind == 2 || kind == 5 || kind == 6
}

// The number of a subtable that may add glyphs.
fn adder(lookup: &[u8], i: u16) -> Option<u16> {
    if adds(subtable_type(7, lookup, i)) {
        Some(i)
    } else {
        None
    }
}

// The number of a lookup's first subtable that may add glyphs.
fn first_adder(lookup: &[u8]) -> Option<u16> {
    for i in 0..subtable_count(lookup) {
        let found = adder(lookup, i);
        if found.is_some() {
            return found;
        }
    }
    None
}

/// How many times as long a lookup makes a text at most: 1 where none of its subtables may add glyphs,
/// else [`GROWTH`].
///
/// <details><summary>Contract</summary>
///
/// # Contract
///
/// ```text
/// ensures { result ≡ growth_in gsub.now index }
/// ```
///
/// - `growth_in`: `crates/opentype_gsub/specs/Growth.antt`
///
/// </details>
pub fn growth(gsub: &[u8], index: u16) -> usize {
    if first_adder(lookup(gsub, index)).is_some() {
        GROWTH
    } else {
        1
    }
}
