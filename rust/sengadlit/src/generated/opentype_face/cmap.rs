// Generated from crates/opentype_face/src/cmap.rt by rust/erase; edit the source.

//! The glyphs of characters, by one subtable of `cmap`.

use crate::generated::opentype_face::bytes::{capped, low16, offset16, u8_at, u16_at, u32_at};
use crate::generated::opentype_face::ranges::Ranges;

/// The glyph of a character, by a subtable of `cmap`, in at most 33 steps of a search.
///
/// <details><summary>Contract</summary>
///
/// # Contract
///
/// ```text
/// ensures { result ≡ cmap_in bytes.now c }
/// ```
///
/// - `cmap_in`: `crates/opentype_face/specs/Cmap.antt`
///
/// </details>
pub fn glyph_of(bytes: &[u8], c: u32) -> Option<u16> {
    let glyph = match u16_at(bytes, 0) {
        0 => by_bytes(bytes, c),
        4 => by_segments(bytes, c),
        6 => by_table(bytes, c),
        10 => by_long_table(bytes, c),
        12 => by_groups(bytes, c),
        13 => by_equal_groups(bytes, c),
        _ => 0,
    };
    if glyph == 0 { None } else { Some(glyph) }
}

fn by_bytes(bytes: &[u8], c: u32) -> u16 {
    if c >= 256 {
        return 0;
    }
    u16::from(u8_at(bytes, 6 + c as usize))
}

fn by_segments(bytes: &[u8], c: u32) -> u16 {
    if c >= 65536 {
        return 0;
    }
    let c = low16(c);
    let count = u32::from(u16_at(bytes, 6)) / 2;
    let n = count * 2;
    let ranges = Ranges {
        bytes,
        first: 16 + n,
        last: 14,
        size: 2,
        count,
    };
    match ranges.find(c) {
        Some(i) => of_segment(bytes, n, c, i),
        None => 0,
    }
}

fn of_segment(bytes: &[u8], n: u32, c: u16, i: u32) -> u16 {
    let (n, at) = (n as usize, i as usize * 2);
    let delta = u16_at(bytes, 16 + 2 * n + at);
    let place = 16 + 3 * n + at;
    let offset = offset16(bytes, place);
    if offset == 0 {
        return low16(u32::from(c) + u32::from(delta));
    }
    let start = u16_at(bytes, 16 + n + at);
    let behind = usize::from(c.saturating_sub(start)) * 2;
    let glyph = u16_at(bytes, place + offset + behind);
    if glyph == 0 {
        0
    } else {
        low16(u32::from(glyph) + u32::from(delta))
    }
}

fn by_table(bytes: &[u8], c: u32) -> u16 {
    let first = u32::from(u16_at(bytes, 6));
    if first <= c && c - first < u32::from(u16_at(bytes, 8)) {
        let i = c - first;
        u16_at(bytes, 10 + i as usize * 2)
    } else {
        0
    }
}

fn by_long_table(bytes: &[u8], c: u32) -> u16 {
    let (first, count) = (
        u32_at(bytes, 12),
        capped(u32_at(bytes, 16), bytes.len() / 2),
    );
    if first <= c && c - first < count {
        let i = c - first;
        u16_at(bytes, 20 + i as usize * 2)
    } else {
        0
    }
}

fn by_groups(bytes: &[u8], c: u32) -> u16 {
    let ranges = Ranges {
        bytes,
        first: 16,
        last: 20,
        size: 12,
        count: capped(u32_at(bytes, 12), bytes.len() / 12),
    };
    match ranges.find_long(c) {
        Some(i) => {
            let start = u32_at(bytes, 16 + i as usize * 12);
            let glyph = u32_at(bytes, 24 + i as usize * 12);
            low16(u32::from(low16(glyph)) + u32::from(low16(c.saturating_sub(start))))
        }
        None => 0,
    }
}

fn by_equal_groups(bytes: &[u8], c: u32) -> u16 {
    let ranges = Ranges {
        bytes,
        first: 16,
        last: 20,
        size: 12,
        count: capped(u32_at(bytes, 12), bytes.len() / 12),
    };
    match ranges.find_long(c) {
        Some(i) => low16(u32_at(bytes, 24 + i as usize * 12)),
        None => 0,
    }
}
