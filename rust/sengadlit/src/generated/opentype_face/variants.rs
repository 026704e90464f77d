// Generated from crates/opentype_face/src/variants.rt by rust/erase; edit the source.

//! The glyphs of characters with a selector behind them, by `cmap` of format 14.

use crate::generated::opentype_face::bytes::{capped, offset32, table_at, u16_at, u32_at};
use crate::generated::opentype_face::ranges::Ranges;

/// What a font says of a character and a selector.
#[derive(Clone, Copy, Debug, PartialEq, Eq, Hash)]
pub enum GlyphVariant {
    /// Nothing.
    NotFound,
    /// Their glyph.
    Found(u16),
    /// Their glyph is the character's own.
    UseDefault,
}

/// What a subtable of format 14 says of a character and a selector, in at most 99 steps.
///
/// <details><summary>Contract</summary>
///
/// # Contract
///
/// ```text
/// ensures { result ≡ variant_in bytes.now c selector }
/// ```
///
/// - `variant_in`: `crates/opentype_face/specs/Variants.antt`
///
/// </details>
pub fn glyph_variant(bytes: &[u8], c: u32, selector: u32) -> GlyphVariant {
    if u16_at(bytes, 0) != 14 {
        return GlyphVariant::NotFound;
    }
    let records = Ranges {
        bytes,
        first: 10,
        last: 10,
        size: 11,
        count: capped(u32_at(bytes, 6), bytes.len() / 11),
    };
    match records.find_24(selector) {
        Some(i) => of_record(bytes, c, i),
        None => GlyphVariant::NotFound,
    }
}

fn of_record(bytes: &[u8], c: u32, i: u32) -> GlyphVariant {
    let at = i as usize * 11;
    if is_default(table_at(bytes, offset32(bytes, 13 + at)), c) {
        return GlyphVariant::UseDefault;
    }
    let glyph = mapped(table_at(bytes, offset32(bytes, 17 + at)), c);
    if glyph == 0 {
        GlyphVariant::NotFound
    } else {
        GlyphVariant::Found(glyph)
    }
}

fn is_default(bytes: &[u8], c: u32) -> bool {
    let ranges = Ranges {
        bytes,
        first: 4,
        last: 7,
        size: 4,
        count: capped(u32_at(bytes, 0), bytes.len() / 4),
    };
    ranges.find_counted(c).is_some()
}

fn mapped(bytes: &[u8], c: u32) -> u16 {
    let mappings = Ranges {
        bytes,
        first: 4,
        last: 4,
        size: 5,
        count: capped(u32_at(bytes, 0), bytes.len() / 5),
    };
    match mappings.find_24(c) {
        Some(i) => u16_at(bytes, 7 + i as usize * 5),
        None => 0,
    }
}
