// Generated from crates/opentype_layout/src/sets.rt by rust/erase; edit the source.

//! The set of the glyphs that a subtable begins with.

use crate::generated::opentype_face::bytes::{offset16, offset32, table_at, u16_at};
use crate::generated::opentype_face::glyph_sets::coverage;
use crate::generated::opentype_face::glyph_tables::PreparedCoverage;
use crate::generated::opentype_face::ranges::Ranges;
use crate::support::alloc::Global;

/// Where the offset of the first set of the input stands, in format 3 of contexts.
#[inline]
pub(crate) fn place_of_first(chained: bool, bytes: &[u8]) -> usize {
    if chained {
        usize::from(u16_at(bytes, 2)) * 2 + 6
    } else {
        6
    }
}

/// Where the offset of the set stands that a subtable's first glyphs are in: the first set of the
/// input in format 3 of contexts, else the one that each subtable begins with.
#[inline]
pub(crate) fn place_of_set(of_gpos: bool, kind: u16, bytes: &[u8]) -> usize {
    let context = if of_gpos { 7 } else { 5 };
    let chained = kind == context + 1;
    if (kind == context || chained) && u16_at(bytes, 0) == 3 {
        place_of_first(chained, bytes)
    } else {
        2
    }
}

// The set of the glyphs that a subtable of a type begins with.
#[inline]
fn set_of(of_gpos: bool, kind: u16, bytes: &[u8]) -> &[u8] {
    table_at(bytes, offset16(bytes, place_of_set(of_gpos, kind, bytes)))
}

/// The set of the glyphs that a subtable begins with.
// (in one pass over the subtable's header, since a lookup may have hundreds of subtables)
#[inline(always)]
pub(crate) fn first_set(of_gpos: bool, lookup: &[u8], i: u16) -> &[u8] {
    let kind = u16_at(lookup, 0);
    let bytes = table_at(lookup, offset16(lookup, 6 + usize::from(i) * 2));
    if kind == if of_gpos { 9 } else { 7 } {
        let named = table_at(bytes, offset32(bytes, 4));
        return set_of(of_gpos, u16_at(bytes, 2), named);
    }
    set_of(of_gpos, kind, bytes)
}

/// The place of a glyph in the set whose offset stands at a place of a subtable; without a search
/// where the set has a table.
#[inline]
pub(crate) fn place_in_set(
    bytes: &[u8],
    at: usize,
    set: Option<&PreparedCoverage<'_>>,
    glyph: u16,
) -> Option<u32> {
    match set {
        Some(set) => set.place(glyph),
        None => coverage(table_at(bytes, offset16(bytes, at)), glyph),
    }
}

/// Whether a set has format 1, one glyph, and this glyph's number.
// (by single bytes: that is one test of the length and one of four bytes)
#[inline(always)]
pub(crate) fn is_of_one_glyph(set: &[u8]) -> bool {
    set.len() >= 6 && set[0] == 0 && set[1] == 1 && set[2] == 0 && set[3] == 1
}

// Whether a set has a glyph. Most sets of rules have one glyph, and that needs no search.
#[inline(always)]
fn has_glyph(set: &[u8], glyph: u16) -> bool {
    if is_of_one_glyph(set) {
        return u16_at(set, 4) == glyph;
    }
    coverage(set, glyph).is_some()
}

/// The number of a subtable that may begin at a glyph.
#[inline]
pub(crate) fn start(of_gpos: bool, lookup: &[u8], glyph: u16, i: u16) -> Option<u16> {
    if has_glyph(first_set(of_gpos, lookup, i), glyph) {
        Some(i)
    } else {
        None
    }
}

/// The ranges of glyphs that a set is made of; in format 1 each glyph is one.
#[inline]
pub(crate) fn ranges(set: &[u8]) -> Ranges<'_> {
    let count = u32::from(u16_at(set, 2));
    match u16_at(set, 0) {
        1 => Ranges {
            bytes: set,
            first: 4,
            last: 4,
            size: 2,
            count,
        },
        2 => Ranges {
            bytes: set,
            first: 4,
            last: 6,
            size: 6,
            count,
        },
        _ => Ranges {
            bytes: set,
            first: 4,
            last: 4,
            size: 2,
            count: 0,
        },
    }
}

/// The first glyph of a range, and the last one.
#[derive(Clone, Copy, Debug)]
pub(crate) struct GlyphRange {
    pub from: u16,
    pub to: u16,
}

/// The range with a number.
#[inline]
pub(crate) fn nth_range(ranges: &Ranges<'_>, i: u32) -> GlyphRange {
    let at = i as usize * ranges.size as usize;
    GlyphRange {
        from: u16_at(ranges.bytes, ranges.first as usize + at),
        to: u16_at(ranges.bytes, ranges.last as usize + at),
    }
}

/// How many glyphs from a set's first to its last one a table may have for each of its records.
const SPREAD: u16 = 64;

/// How much of a budget a table may take whose glyphs are far apart.
const SHARE: usize = 64;

// Whether a table of a set is worth its room: few glyphs far apart are found nearly as soon by a
// search, so that their table mustn't keep others from being made.
fn is_worth_its_room(set: &[u8], budget: usize) -> bool {
    let ranges = ranges(set);
    if ranges.count == 0 {
        return false;
    }
    let first = nth_range(&ranges, 0).from;
    let last = nth_range(&ranges, ranges.count - 1).to;
    let spread = last.saturating_sub(first);
    u32::from(spread / SPREAD) < ranges.count || usize::from(spread) * 2 < budget / SHARE
}

/// A set, with a table of its glyphs' places where that is worth its room. A budget in bytes pays for it.
pub(crate) fn table_of_set<'a>(
    set: &'a [u8],
    alloc: Global,
    budget: &mut usize,
) -> PreparedCoverage<'a> {
    if is_worth_its_room(set, *budget) {
        return PreparedCoverage::new(set, alloc, budget);
    }
    PreparedCoverage::new(set, alloc, &mut 0)
}
