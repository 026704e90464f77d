// Generated from crates/opentype_gpos/src/nearby.rt by rust/erase; edit the source.

//! The glyphs near another one that lookups look at.

use crate::generated::opentype_face::glyph_sets::coverage;
use crate::generated::opentype_layout::sight::Sight;
use crate::generated::shapers_buffer::buffer::GlyphInfo;

/// The number of a glyph, of two bytes.
///
/// <details><summary>Contract</summary>
///
/// # Contract
///
/// ```text
/// ensures { result ≡ number_in glyph.now }
/// ```
///
/// - `number_in`: `crates/opentype_gpos/specs/Nearby.antt`
///
/// </details>
#[inline]
pub fn number(glyph: &GlyphInfo) -> u16 {
    (glyph.glyph_id % 65536) as u16
}

// What a search for any glyph makes of one.
#[inline]
pub(crate) fn any(gdef: &[u8], sight: &Sight, glyph: &GlyphInfo) -> Option<bool> {
    let is_seen = !sight.may_pass(glyph);
    sight.sees(gdef, is_seen, glyph)
}

// The next glyph from a place on that a lookup sees, by a search.
#[inline(never)]
fn next_behind(gdef: &[u8], sight: &Sight, glyphs: &[GlyphInfo], from: usize) -> Option<usize> {
    for i in from..glyphs.len() {
        let seen = any(gdef, sight, &glyphs[i]);
        if let Some(is_found) = seen {
            return if is_found { Some(i) } else { None };
        }
    }
    None
}

// Whether a lookup sees a glyph that is no mark, and that no search passes over: most glyphs are so.
#[inline]
fn sees_plainly(sight: &Sight, glyph: &GlyphInfo) -> bool {
    let props = glyph.glyph_props.0;
    if props & sight.flag & 0x0E != 0 || props & 8 == 8 {
        return false;
    }
    if glyph.unicode_props.0 & 32 == 32 || sight.syllable != 0 {
        return false;
    }
    glyph.mask & sight.mask != 0
}

/// The next glyph from a place on that a lookup sees. Most often it is the first one, which is looked
/// at without a loop.
///
/// <details><summary>Contract</summary>
///
/// # Contract
///
/// ```text
/// ensures value { result ≡ next_any gdef.now sight.now glyphs.now from }
/// ensures within { IfSome result (λ i. i < length glyphs.now) }
/// ```
///
/// - `next_any`: `crates/opentype_gpos/specs/Nearby.antt`
///
/// </details>
#[inline]
pub fn next_glyph(gdef: &[u8], sight: &Sight, glyphs: &[GlyphInfo], from: usize) -> Option<usize> {
    if from >= glyphs.len() {
        return None;
    }
    if sees_plainly(sight, &glyphs[from]) {
        return Some(from);
    }
    next_behind(gdef, sight, glyphs, from)
}

// The nearest glyph before a place that a lookup sees, by how many glyphs stand between.
fn count_between(gdef: &[u8], sight: &Sight, glyphs: &[GlyphInfo], at: usize) -> Option<usize> {
    for i in 0..at {
        let seen = any(gdef, sight, &glyphs[at - 1 - i]);
        if let Some(is_found) = seen {
            return if is_found { Some(i) } else { None };
        }
    }
    None
}

/// The nearest glyph before a place that a lookup sees.
///
/// <details><summary>Contract</summary>
///
/// # Contract
///
/// ```text
/// requires { at ≤ length glyphs.now }
/// ensures value { result ≡ previous_any gdef.now sight.now glyphs.now at }
/// ensures within { IfSome result (λ i. i < at) }
/// ```
///
/// - `previous_any`: `crates/opentype_gpos/specs/Nearby.antt`
///
/// </details>
pub fn previous_glyph(
    gdef: &[u8],
    sight: &Sight,
    glyphs: &[GlyphInfo],
    at: usize,
) -> Option<usize> {
    match count_between(gdef, sight, glyphs, at) {
        Some(i) => Some(at - 1 - i),
        None => None,
    }
}

/// Whether a glyph is a mark, by its class.
///
/// <details><summary>Contract</summary>
///
/// # Contract
///
/// ```text
/// ensures { result ≡ marks_glyph glyph.now }
/// ```
///
/// - `marks_glyph`: `crates/opentype_gpos/specs/Nearby.antt`
///
/// </details>
#[inline]
pub fn is_mark_glyph(glyph: &GlyphInfo) -> bool {
    glyph.glyph_props.0 & 8 == 8
}

/// The number of the ligature that a glyph is or belongs to.
///
/// <details><summary>Contract</summary>
///
/// # Contract
///
/// ```text
/// ensures { result ≡ ligature_id glyph.now }
/// ```
///
/// - `ligature_id`: `crates/opentype_gpos/specs/Nearby.antt`
///
/// </details>
#[inline]
pub fn ligature_number(glyph: &GlyphInfo) -> u8 {
    glyph.lig_props.0 / 32
}

// Whether two glyphs stand one after the other in what a lookup put in for one.
#[inline]
fn carries_on(before: &GlyphInfo, glyph: &GlyphInfo) -> bool {
    glyph.glyph_props.is_multiplied()
        && glyph.lig_props.component() != 0
        && !is_mark_glyph(before)
        && before.glyph_props.is_multiplied()
        && ligature_number(before) == ligature_number(glyph)
        && u16::from(glyph.lig_props.component()) == u16::from(before.lig_props.component()) + 1
}

// Whether a glyph is one that a lookup put in for another with more, and not the first.
#[inline]
fn is_later_multiple(glyphs: &[GlyphInfo], at: usize) -> bool {
    if at == 0 {
        return false;
    }
    carries_on(&glyphs[at - 1], &glyphs[at])
}

// Whether the glyph at a place is one that a mark attaches to.
fn is_base_at(
    gdef: &[u8],
    sight: &Sight,
    is_any: bool,
    bases: &[u8],
    glyphs: &[GlyphInfo],
    at: usize,
) -> bool {
    match any(gdef, sight, &glyphs[at]) {
        Some(true) => {
            is_any
                || !is_later_multiple(glyphs, at)
                || coverage(bases, number(&glyphs[at])).is_some()
        }
        _ => false,
    }
}

// The glyph before a place with so many between, if a mark attaches to it.
fn base_behind(
    gdef: &[u8],
    sight: &Sight,
    is_any: bool,
    bases: &[u8],
    glyphs: &[GlyphInfo],
    at: usize,
    i: usize,
) -> Option<usize> {
    if is_base_at(gdef, sight, is_any, bases, glyphs, at - 1 - i) {
        Some(at - 1 - i)
    } else {
        None
    }
}

// The first of these glyphs before a place that a mark attaches to.
fn first_base(
    gdef: &[u8],
    sight: &Sight,
    is_any: bool,
    bases: &[u8],
    glyphs: &[GlyphInfo],
    at: usize,
) -> Option<usize> {
    for i in 0..at {
        let base = base_behind(gdef, sight, is_any, bases, glyphs, at, i);
        if base.is_some() {
            return base;
        }
    }
    None
}

/// The glyph before a mark that it attaches to: the nearest that is no mark. Of glyphs that came in
/// for one it is the first, unless the table `bases` has another; with `is_any` it is any.
///
/// <details><summary>Contract</summary>
///
/// # Contract
///
/// ```text
/// requires { at ≤ length glyphs.now }
/// ensures value { result ≡ base_glyph_before gdef.now sight.now is_any bases.now glyphs.now at }
/// ensures within { IfSome result (λ base. base < at) }
/// ```
///
/// - `base_glyph_before`: `crates/opentype_gpos/specs/Nearby.antt`
///
/// </details>
pub fn base_glyph(
    gdef: &[u8],
    sight: &Sight,
    is_any: bool,
    bases: &[u8],
    glyphs: &[GlyphInfo],
    at: usize,
) -> Option<usize> {
    let mut of_bases = *sight;
    of_bases.flag = 8;
    of_bases.set = 0;
    first_base(gdef, &of_bases, is_any, bases, glyphs, at)
}

/// The glyph before a mark that it may attach to as to another mark.
///
/// <details><summary>Contract</summary>
///
/// # Contract
///
/// ```text
/// requires { at ≤ length glyphs.now }
/// ensures value { result ≡ previous_any gdef.now (mark_sight sight.now) glyphs.now at }
/// ensures within { IfSome result (λ i. i < at) }
/// ```
///
/// - `mark_sight`, `previous_any`: `crates/opentype_gpos/specs/Nearby.antt`
///
/// </details>
pub fn glyph_before_mark(
    gdef: &[u8],
    sight: &Sight,
    glyphs: &[GlyphInfo],
    at: usize,
) -> Option<usize> {
    let mut of_marks = *sight;
    of_marks.flag = sight.flag & 0xFFF1;
    previous_glyph(gdef, &of_marks, glyphs, at)
}

#[inline]
fn is_whole_ligature(glyph: &GlyphInfo) -> bool {
    ligature_number(glyph) != 0 && glyph.lig_props.component() == 0
}

/// Whether two marks are of the same base, or of the same component of a ligature.
///
/// <details><summary>Contract</summary>
///
/// # Contract
///
/// ```text
/// ensures { result ≡ are_beside a.now b.now }
/// ```
///
/// - `are_beside`: `crates/opentype_gpos/specs/Nearby.antt`
///
/// </details>
#[inline]
pub fn are_beside(a: &GlyphInfo, b: &GlyphInfo) -> bool {
    if ligature_number(a) == ligature_number(b) {
        return ligature_number(a) == 0 || a.lig_props.component() == b.lig_props.component();
    }
    is_whole_ligature(a) || is_whole_ligature(b)
}
