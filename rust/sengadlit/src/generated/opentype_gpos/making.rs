// Generated from crates/opentype_gpos/src/making.rt by rust/erase; edit the source.

//! Moves at a place of a text.

use crate::generated::opentype_face::bytes::u16_at;
use crate::generated::opentype_gpos::joins::move_cursive;
use crate::generated::opentype_gpos::moved::{add, move_mark, move_pair};
use crate::generated::opentype_gpos::moves::{Move, PairPlace, advance_of, values_of};
use crate::generated::shapers_buffer::buffer::{Direction, GlyphInfo, GlyphPosition};

/// Makes a move at a place of a text, and returns the place that comes next.
///
/// <details><summary>Contract</summary>
///
/// # Contract
///
/// ```text
/// requires here { at < length positions.old }
/// ensures { moved direction change.now at glyphs.old positions.old
///     ≡ record { glyphs = glyphs.new; positions = positions.new; next = result } }
/// ```
///
/// - `moved`: `crates/opentype_gpos/specs/Making.antt`
///
/// </details>
pub fn make_move(
    direction: Direction,
    change: &Move,
    at: usize,
    glyphs: &mut [GlyphInfo],
    positions: &mut [GlyphPosition],
) -> usize {
    match change {
        Move::Adds(value) => {
            add(direction, value, at, positions);
            at + 1
        }
        Move::Kerns(pair) => {
            if pair.second >= glyphs.len() {
                return at + 1;
            }
            move_pair(direction, pair, at, glyphs, positions)
        }
        Move::Attaches(mark) => move_mark(mark, at, glyphs, positions),
        Move::Joins(it) => {
            if it.before >= positions.len() {
                return at + 1;
            }
            move_cursive(direction, it, at, glyphs, positions)
        }
    }
}

// Adds the values of a pair, of any formats.
#[inline(never)]
fn make_any_pair(
    direction: Direction,
    pair: &PairPlace<'_>,
    at: usize,
    glyphs: &mut [GlyphInfo],
    positions: &mut [GlyphPosition],
) -> usize {
    move_pair(direction, &values_of(pair), at, glyphs, positions)
}

/// Adds the values of a pair, and returns the place that comes next. In most fonts the first glyph has
/// an advance along the line, and the second one nothing.
///
/// <details><summary>Contract</summary>
///
/// # Contract
///
/// ```text
/// requires here { at < length positions.old }
/// ensures { moved direction (pair_found pair.now) at glyphs.old positions.old
///     ≡ record { glyphs = glyphs.new; positions = positions.new; next = result } }
/// ```
///
/// - `moved`: `crates/opentype_gpos/specs/Making.antt`
/// - `pair_found`: `crates/opentype_gpos/specs/Moves.antt`
///
/// </details>
pub fn make_pair(
    direction: Direction,
    pair: &PairPlace<'_>,
    at: usize,
    glyphs: &mut [GlyphInfo],
    positions: &mut [GlyphPosition],
) -> usize {
    if pair.second >= glyphs.len() {
        return at + 1;
    }
    if u16_at(pair.bytes, 4) == 4 && u16_at(pair.bytes, 6) == 0 {
        return move_pair(direction, &advance_of(pair), at, glyphs, positions);
    }
    make_any_pair(direction, pair, at, glyphs, positions)
}
