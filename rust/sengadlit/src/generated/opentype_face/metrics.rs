// Generated from crates/opentype_face/src/metrics.rt by rust/erase; edit the source.

//! The numbers of a face and of its glyphs, in units of the font.

use crate::generated::opentype_face::bytes::{capped, i16_at, u16_at};
use crate::generated::opentype_face::ranges::Ranges;

/// How many units an em has, by `head`: from 16 to 16384, and 1000 where the table has another number.
///
/// <details><summary>Contract</summary>
///
/// # Contract
///
/// ```text
/// ensures { result ≡ units_in head.now }
/// ```
///
/// - `units_in`: `crates/opentype_face/specs/Metrics.antt`
///
/// </details>
#[inline]
pub fn units_per_em(head: &[u8]) -> u16 {
    let units = u16_at(head, 18);
    if 16 <= units && units <= 16384 {
        units
    } else {
        1000
    }
}

/// How many glyphs the font has, by `maxp`.
///
/// <details><summary>Contract</summary>
///
/// # Contract
///
/// ```text
/// ensures { result ≡ u16_in maxp.now 4 }
/// ```
///
/// - `u16_in`: `crates/opentype_face/specs/Bytes.antt`
///
/// </details>
#[inline]
pub fn glyph_count(maxp: &[u8]) -> u16 {
    u16_at(maxp, 4)
}

/// How many glyphs have a bearing and an advance of their own, of those that the table has room for.
///
/// <details><summary>Contract</summary>
///
/// # Contract
///
/// ```text
/// ensures { result ≡ long_metrics_in header.now metrics.now }
/// ```
///
/// - `long_metrics_in`: `crates/opentype_face/specs/Metrics.antt`
///
/// </details>
#[inline]
pub fn long_metrics(header: &[u8], metrics: &[u8]) -> u32 {
    capped(u32::from(u16_at(header, 34)), metrics.len() / 4)
}

/// Whether a glyph has a bearing and an advance of its own.
// (two comparisons, since the division and the lesser of both cost more)
///
/// <details><summary>Contract</summary>
///
/// # Contract
///
/// ```text
/// ensures { result ≡ nat_lt glyph (long_metrics_in header.now metrics.now) }
/// ```
///
/// - `long_metrics_in`: `crates/opentype_face/specs/Metrics.antt`
///
/// </details>
#[inline]
pub fn has_long_metric(header: &[u8], metrics: &[u8], glyph: u16) -> bool {
    glyph < u16_at(header, 34) && usize::from(glyph) * 4 + 4 <= metrics.len()
}

/// The advance of a glyph, by `hhea` and `hmtx`, or `vhea` and `vmtx`, in a font of so many glyphs; `None`
/// where the font has no metrics of that direction.
///
/// <details><summary>Contract</summary>
///
/// # Contract
///
/// ```text
/// ensures { result ≡ advance_in header.now metrics.now count glyph }
/// ```
///
/// - `advance_in`: `crates/opentype_face/specs/Metrics.antt`
///
/// </details>
pub fn advance(header: &[u8], metrics: &[u8], count: u16, glyph: u16) -> Option<u16> {
    let long = long_metrics(header, metrics);
    if long == 0 {
        return None;
    }
    if u32::from(glyph) < long {
        return Some(u16_at(metrics, usize::from(glyph) * 4));
    }
    if glyph >= count {
        return Some(0);
    }
    let last = long - 1;
    Some(u16_at(metrics, last as usize * 4))
}

/// The bearing of a glyph, on the left or on top, by the same tables; 0 where they have none.
///
/// <details><summary>Contract</summary>
///
/// # Contract
///
/// ```text
/// ensures { result ≡ bearing_in header.now metrics.now count glyph }
/// ```
///
/// - `bearing_in`: `crates/opentype_face/specs/Metrics.antt`
///
/// </details>
pub fn side_bearing(header: &[u8], metrics: &[u8], count: u16, glyph: u16) -> i16 {
    let long = long_metrics(header, metrics);
    if u32::from(glyph) < long {
        return i16_at(metrics, usize::from(glyph) * 4 + 2);
    }
    if long == 0 || glyph >= count {
        return 0;
    }
    let behind = u32::from(glyph) - long;
    i16_at(metrics, long as usize * 4 + behind as usize * 2)
}

/// The height of a glyph's vertical origin, by `VORG`; `None` without the table. It takes 17 steps at most.
///
/// <details><summary>Contract</summary>
///
/// # Contract
///
/// ```text
/// ensures { result ≡ origin_in vorg.now glyph }
/// ```
///
/// - `origin_in`: `crates/opentype_face/specs/Metrics.antt`
///
/// </details>
pub fn vertical_origin(vorg: &[u8], glyph: u16) -> Option<i16> {
    if u16_at(vorg, 0) != 1 {
        return None;
    }
    let origins = Ranges {
        bytes: vorg,
        first: 8,
        last: 8,
        size: 4,
        count: u32::from(u16_at(vorg, 6)),
    };
    match origins.find(glyph) {
        Some(i) => Some(i16_at(vorg, 10 + i as usize * 4)),
        None => Some(i16_at(vorg, 4)),
    }
}

fn uses_typo_metrics(os2: &[u8]) -> bool {
    u16_at(os2, 62) / 128 % 2 == 1
        && !(u16_at(os2, 4) == 0
            && u16_at(os2, 6) == 0
            && u16_at(os2, 64) == 0
            && u16_at(os2, 66) == 0)
}

/// How far the font rises above the base line, whatever sign its tables have there.
fn rise(hhea: &[u8], os2: &[u8], units: u16) -> u16 {
    if uses_typo_metrics(os2) {
        return i16_at(os2, 68).unsigned_abs();
    }
    if u16_at(hhea, 0) == 0 {
        return four_fifths(units);
    }
    i16_at(hhea, 4).unsigned_abs()
}

/// How far it goes below the base line.
fn fall(hhea: &[u8], os2: &[u8], units: u16) -> u16 {
    if uses_typo_metrics(os2) {
        return i16_at(os2, 70).unsigned_abs();
    }
    if u16_at(hhea, 0) == 0 {
        return units - four_fifths(units);
    }
    i16_at(hhea, 6).unsigned_abs()
}

fn four_fifths(units: u16) -> u16 {
    (u32::from(units) * 4 / 5) as u16
}

/// How high a line is: from the lowest place below the base line to the highest one above it.
///
/// <details><summary>Contract</summary>
///
/// # Contract
///
/// ```text
/// ensures value { result ≡ nat_abs (ascender_in hhea.now os2.now units) + nat_abs (descender_in hhea.now os2.now units) }
/// ensures bound { result < 2 ^ 17 }
/// ```
///
/// - `ascender_in`, `descender_in`: `crates/opentype_face/specs/Metrics.antt`
///
/// </details>
pub fn line_height(hhea: &[u8], os2: &[u8], units: u16) -> u32 {
    u32::from(rise(hhea, os2, units)) + u32::from(fall(hhea, os2, units))
}

/// How far the font rises above the base line, by `OS/2` or `hhea`, or else four fifths of an em.
///
/// <details><summary>Contract</summary>
///
/// # Contract
///
/// ```text
/// ensures { result ≡ ascender_in hhea.now os2.now units }
/// ```
///
/// - `ascender_in`: `crates/opentype_face/specs/Metrics.antt`
///
/// </details>
pub fn ascender(hhea: &[u8], os2: &[u8], units: u16) -> i32 {
    if uses_typo_metrics(os2) {
        return i32::from(i16_at(os2, 68)).abs();
    }
    if u16_at(hhea, 0) == 0 {
        return i32::from(units) * 4 / 5;
    }
    i32::from(i16_at(hhea, 4)).abs()
}

/// How far it goes below the base line, as a number below 0; the rest of an em where no table says so.
///
/// <details><summary>Contract</summary>
///
/// # Contract
///
/// ```text
/// ensures { result ≡ descender_in hhea.now os2.now units }
/// ```
///
/// - `descender_in`: `crates/opentype_face/specs/Metrics.antt`
///
/// </details>
pub fn descender(hhea: &[u8], os2: &[u8], units: u16) -> i32 {
    if uses_typo_metrics(os2) {
        return -i32::from(i16_at(os2, 70)).abs();
    }
    if u16_at(hhea, 0) == 0 {
        return i32::from(units) * 4 / 5 - i32::from(units);
    }
    -i32::from(i16_at(hhea, 6)).abs()
}

/// The page of an old font of one script, by `OS/2` of version 0: 0xB2 and 0xB3 are Arabic.
///
/// <details><summary>Contract</summary>
///
/// # Contract
///
/// ```text
/// ensures { result ≡ font_page_in os2.now }
/// ```
///
/// - `font_page_in`: `crates/opentype_face/specs/Metrics.antt`
///
/// </details>
#[inline]
pub fn font_page(os2: &[u8]) -> u16 {
    if u16_at(os2, 0) == 0 {
        u16_at(os2, 62) / 256
    } else {
        0
    }
}
