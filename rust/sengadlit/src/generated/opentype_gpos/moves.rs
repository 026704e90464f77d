// Generated from crates/opentype_gpos/src/moves.rt by rust/erase; edit the source.

//! What subtables do at a place of a text.

use crate::support::prelude::*;

use crate::generated::opentype_face::bytes::{table_at, u16_at};
use crate::generated::opentype_gpos::anchors::{Point, joint_of, ligature_points, points};
use crate::generated::opentype_gpos::nearby::{
    are_beside, base_glyph, glyph_before_mark, is_mark_glyph, ligature_number, next_glyph, number,
    previous_glyph,
};
use crate::generated::opentype_gpos::values::{Value, pair, pair_in_table, single, size, value_at};
use crate::generated::opentype_layout::pair_tables::PairTable;
use crate::generated::opentype_layout::position_tables::PositionRef;
use crate::generated::opentype_layout::sight::Sight;
use crate::generated::shapers_buffer::buffer::GlyphInfo;

/// What a lookup does at a place of a text.
#[derive(Clone, Copy, Debug, PartialEq, Eq, Hash)]
pub enum Move {
    /// A value is added to the glyph's position.
    Adds(Value),
    /// Values are added to two positions.
    Kerns(PairMove),
    /// The glyph comes upon another one.
    Attaches(MarkMove),
    /// The glyph joins the one before it in a cursive line.
    Joins(CursiveMove),
}

/// Values for a pair of glyphs.
#[derive(Clone, Copy, Debug, PartialEq, Eq, Hash)]
pub struct PairMove {
    /// The place of the second glyph.
    pub second: usize,
    /// What is added to the first one's position.
    pub first_value: Value,
    /// What is added to the second one's.
    pub second_value: Value,
    /// Whether the second one has values of its own, so that it begins no pair.
    pub has_second: bool,
}

/// Where a subtable has the values of a pair.
#[derive(Clone, Copy, Debug)]
pub struct PairPlace<'a> {
    /// The subtable.
    pub bytes: &'a [u8],
    /// The place of the second glyph.
    pub second: usize,
    /// Where the values stand, from the subtable's start.
    pub place: usize,
}

/// A mark upon another glyph.
#[derive(Clone, Copy, Debug, PartialEq, Eq, Hash)]
pub struct MarkMove {
    /// The place of the other glyph.
    pub to: usize,
    /// How far right of the other's origin the mark's is.
    pub x: i32,
    /// How far above it.
    pub y: i32,
}

/// A glyph that joins the one before it.
#[derive(Clone, Copy, Debug, PartialEq, Eq, Hash)]
pub struct CursiveMove {
    /// The place of the glyph before it.
    pub before: usize,
    /// The point where that is left.
    pub exit: Point,
    /// The point where the glyph is entered.
    pub entry: Point,
    /// Whether the last glyph of a line stays where it is, and not the first one.
    pub from_end: bool,
}

fn single_of(it: &PositionRef<'_>, glyphs: &[GlyphInfo], at: usize) -> Option<Move> {
    match single(it, number(&glyphs[at])) {
        Some(place) => {
            let value = value_at(table_at(it.bytes, place), 0, u16_at(it.bytes, 4));
            Some(Move::Adds(value))
        }
        None => None,
    }
}

/// The values of a pair.
///
/// <details><summary>Contract</summary>
///
/// # Contract
///
/// ```text
/// ensures value { Kerns result ≡ pair_found pair.now }
/// ensures second { result.second ≡ pair.now.second }
/// ```
///
/// - `pair_found`: `crates/opentype_gpos/specs/Moves.antt`
///
/// </details>
pub fn values_of(pair: &PairPlace<'_>) -> PairMove {
    let (format, second_format) = (u16_at(pair.bytes, 4), u16_at(pair.bytes, 6));
    let values = table_at(pair.bytes, pair.place);
    PairMove {
        second: pair.second,
        first_value: value_at(values, 0, format),
        second_value: value_at(values, usize::from(size(format)), second_format),
        has_second: second_format != 0,
    }
}

/// The same where the first glyph has an advance along the line, and the second one nothing.
///
/// <details><summary>Contract</summary>
///
/// # Contract
///
/// ```text
/// requires first { u16_in pair.now.bytes.now 4 ≡ 4 }
/// requires second { u16_in pair.now.bytes.now 6 ≡ 0 }
/// ensures value { Kerns result ≡ pair_found pair.now }
/// ensures second { result.second ≡ pair.now.second }
/// ```
///
/// - `u16_in`: `crates/opentype_face/specs/Bytes.antt`
/// - `pair_found`: `crates/opentype_gpos/specs/Moves.antt`
///
/// </details>
#[inline]
pub fn advance_of(pair: &PairPlace<'_>) -> PairMove {
    let values = table_at(pair.bytes, pair.place);
    PairMove {
        second: pair.second,
        first_value: value_at(values, 0, 4),
        second_value: value_at(values, 2, 0),
        has_second: false,
    }
}

// The values of a pair, by the place of the first glyph in the subtable's set.
pub(crate) fn pair_of(
    bytes: &[u8],
    i: u32,
    glyphs: &[GlyphInfo],
    at: usize,
    second: usize,
) -> Option<Move> {
    match pair(bytes, i, number(&glyphs[at]), number(&glyphs[second])) {
        Some(place) => Some(Move::Kerns(values_of(&PairPlace {
            bytes,
            second,
            place,
        }))),
        None => None,
    }
}

fn pair_at(
    gdef: &[u8],
    sight: &Sight,
    it: &PositionRef<'_>,
    glyphs: &[GlyphInfo],
    at: usize,
) -> Option<Move> {
    let i = it.first_place(number(&glyphs[at]))?;
    match next_glyph(gdef, sight, glyphs, at + 1) {
        Some(second) => pair_of(it.bytes, i, glyphs, at, second),
        None => None,
    }
}

// Where the values are, by tables of the subtable's glyphs.
#[inline]
fn pair_of_table<'a>(
    table: &PairTable<'a>,
    i: u32,
    glyphs: &[GlyphInfo],
    at: usize,
    second: usize,
) -> Option<PairPlace<'a>> {
    match pair_in_table(table, i, number(&glyphs[at]), number(&glyphs[second])) {
        Some(place) => Some(PairPlace {
            bytes: table.bytes(),
            second,
            place,
        }),
        None => None,
    }
}

/// The pair that a subtable of type 2 has at a place, by tables of its glyphs.
///
/// <details><summary>Contract</summary>
///
/// # Contract
///
/// ```text
/// requires { at < length glyphs.now }
/// ensures { option_map pair_found result
///     ≡ pair_move gdef.now sight.now table.now glyphs.now at }
/// ```
///
/// - `pair_found`, `pair_move`: `crates/opentype_gpos/specs/Moves.antt`
///
/// </details>
#[inline]
pub fn pair_by_table<'a>(
    gdef: &[u8],
    sight: &Sight,
    table: &PairTable<'a>,
    glyphs: &[GlyphInfo],
    at: usize,
) -> Option<PairPlace<'a>> {
    let i = table.place(number(&glyphs[at]))?;
    match next_glyph(gdef, sight, glyphs, at + 1) {
        Some(second) => pair_of_table(table, i, glyphs, at, second),
        None => None,
    }
}

// A mark, by its place in the subtable's set, upon another glyph.
fn attached(it: &PositionRef<'_>, mark: u32, glyphs: &[GlyphInfo], to: usize) -> Option<Move> {
    match points(it, mark, number(&glyphs[to])) {
        Some((point, own)) => Some(attach(to, point, own)),
        None => None,
    }
}

#[inline]
fn attach(to: usize, point: Point, own: Point) -> Move {
    Move::Attaches(MarkMove {
        to,
        x: point.x.saturating_sub(own.x),
        y: point.y.saturating_sub(own.y),
    })
}

fn mark_to_base(
    gdef: &[u8],
    sight: &Sight,
    it: &PositionRef<'_>,
    glyphs: &[GlyphInfo],
    at: usize,
) -> Option<Move> {
    let mark = it.first_place(number(&glyphs[at]))?;
    let bases = table_at(it.bytes, usize::from(u16_at(it.bytes, 4)));
    match base_glyph(gdef, sight, false, bases, glyphs, at) {
        Some(base) => attached(it, mark, glyphs, base),
        None => None,
    }
}

fn mark_to(
    it: &PositionRef<'_>,
    mark: u32,
    glyphs: &[GlyphInfo],
    at: usize,
    to: usize,
) -> Option<Move> {
    if is_mark_glyph(&glyphs[to]) && are_beside(&glyphs[at], &glyphs[to]) {
        attached(it, mark, glyphs, to)
    } else {
        None
    }
}

fn mark_to_mark(
    gdef: &[u8],
    sight: &Sight,
    it: &PositionRef<'_>,
    glyphs: &[GlyphInfo],
    at: usize,
) -> Option<Move> {
    let mark = it.first_place(number(&glyphs[at]))?;
    match glyph_before_mark(gdef, sight, glyphs, at) {
        Some(other) => mark_to(it, mark, glyphs, at, other),
        None => None,
    }
}

// The component of a ligature that a mark is of; 0 where it is of none.
fn component_for(mark: &GlyphInfo, ligature: &GlyphInfo) -> u8 {
    if ligature_number(ligature) != 0 && ligature_number(ligature) == ligature_number(mark) {
        mark.lig_props.component()
    } else {
        0
    }
}

fn attached_to_ligature(
    it: &PositionRef<'_>,
    mark: u32,
    glyphs: &[GlyphInfo],
    at: usize,
    to: usize,
) -> Option<Move> {
    let component = u16::from(component_for(&glyphs[at], &glyphs[to]));
    match ligature_points(it, mark, number(&glyphs[to]), component) {
        Some((point, own)) => Some(attach(to, point, own)),
        None => None,
    }
}

fn mark_to_ligature(
    gdef: &[u8],
    sight: &Sight,
    it: &PositionRef<'_>,
    glyphs: &[GlyphInfo],
    at: usize,
) -> Option<Move> {
    let mark = it.first_place(number(&glyphs[at]))?;
    match base_glyph(gdef, sight, true, &[], glyphs, at) {
        Some(ligature) => attached_to_ligature(it, mark, glyphs, at, ligature),
        None => None,
    }
}

fn joined_to(
    it: &PositionRef<'_>,
    from_end: bool,
    entry: Point,
    glyphs: &[GlyphInfo],
    before: usize,
) -> Option<Move> {
    match joint_of(it, 2, number(&glyphs[before])) {
        Some(exit) => Some(Move::Joins(CursiveMove {
            before,
            exit,
            entry,
            from_end,
        })),
        None => None,
    }
}

fn joined_from(
    gdef: &[u8],
    sight: &Sight,
    it: &PositionRef<'_>,
    entry: Point,
    glyphs: &[GlyphInfo],
    at: usize,
) -> Option<Move> {
    match previous_glyph(gdef, sight, glyphs, at) {
        Some(before) => joined_to(it, sight.flag & 1 == 1, entry, glyphs, before),
        None => None,
    }
}

fn cursive(
    gdef: &[u8],
    sight: &Sight,
    it: &PositionRef<'_>,
    glyphs: &[GlyphInfo],
    at: usize,
) -> Option<Move> {
    match joint_of(it, 0, number(&glyphs[at])) {
        Some(entry) => joined_from(gdef, sight, it, entry, glyphs, at),
        None => None,
    }
}

/// What a subtable of one of types 1 to 6 does at a place.
///
/// <details><summary>Contract</summary>
///
/// # Contract
///
/// ```text
/// requires { at < length glyphs.now }
/// ensures { result ≡ one_move gdef.now sight.now it.now.kind it.now.bytes.now glyphs.now at }
/// ```
///
/// - `one_move`: `crates/opentype_gpos/specs/Moves.antt`
///
/// </details>
pub fn move_by(
    gdef: &[u8],
    sight: &Sight,
    it: &PositionRef<'_>,
    glyphs: &[GlyphInfo],
    at: usize,
) -> Option<Move> {
    match it.kind {
        1 => single_of(it, glyphs, at),
        2 => pair_at(gdef, sight, it, glyphs, at),
        3 => cursive(gdef, sight, it, glyphs, at),
        4 => mark_to_base(gdef, sight, it, glyphs, at),
        5 => mark_to_ligature(gdef, sight, it, glyphs, at),
        6 => mark_to_mark(gdef, sight, it, glyphs, at),
        _ => None,
    }
}
