// Generated from crates/opentype_gpos/src/moved.rt by rust/erase; edit the source.

//! What moves make of a text.

use crate::generated::opentype_gpos::moves::{MarkMove, PairMove};
use crate::generated::opentype_gpos::values::Value;
use crate::generated::shapers_buffer::buffer::{
    Direction, GlyphInfo, GlyphPosition, unsafe_to_break_in,
};

/// Whether a line goes from top to bottom, or upwards.
///
/// <details><summary>Contract</summary>
///
/// # Contract
///
/// ```text
/// ensures { result ≡ is_vertical direction }
/// ```
///
/// - `is_vertical`: `crates/opentype_gpos/specs/Moved.antt`
///
/// </details>
#[inline]
pub fn is_vertical(direction: Direction) -> bool {
    match direction {
        Direction::TopToBottom | Direction::BottomToTop => true,
        Direction::LeftToRight | Direction::RightToLeft | Direction::Invalid => false,
    }
}

// A position with a value.
#[inline]
fn with_value(vertical: bool, value: &Value, position: GlyphPosition) -> GlyphPosition {
    if vertical {
        return GlyphPosition {
            y_advance: position.y_advance.saturating_sub(value.y_advance),
            x_offset: position.x_offset.saturating_add(value.x_placement),
            y_offset: position.y_offset.saturating_add(value.y_placement),
            ..position
        };
    }
    GlyphPosition {
        x_advance: position.x_advance.saturating_add(value.x_advance),
        x_offset: position.x_offset.saturating_add(value.x_placement),
        y_offset: position.y_offset.saturating_add(value.y_placement),
        ..position
    }
}

// Whether a value is other than nothing.
#[inline]
pub(crate) fn does_move(vertical: bool, value: &Value) -> bool {
    let advance = if vertical {
        value.y_advance
    } else {
        value.x_advance
    };
    value.x_placement.unsigned_abs() != 0
        || value.y_placement.unsigned_abs() != 0
        || advance.unsigned_abs() != 0
}

// Adds a value to a glyph's position.
pub(crate) fn add(direction: Direction, value: &Value, at: usize, positions: &mut [GlyphPosition]) {
    if at >= positions.len() {
        return;
    }
    positions[at] = with_value(is_vertical(direction), value, positions[at]);
}

// The end of a stretch up to a place with its glyph.
#[inline]
fn end_behind(last: usize, glyphs: &[GlyphInfo]) -> usize {
    if last < glyphs.len() {
        last + 1
    } else {
        glyphs.len()
    }
}

// Flags a stretch as one with no break inside, up to a place with its glyph, if there is one.
pub(crate) fn flag_up_to(is_on: bool, start: usize, last: usize, glyphs: &mut [GlyphInfo]) {
    let end = end_behind(last, glyphs);
    if is_on && start <= end && end - start <= 255 {
        unsafe_to_break_in(glyphs, start, end);
    }
}

// Adds the values of a pair, and returns the place that comes next. Where its caller knows that some of
// the values are 0, nothing is done for them.
#[inline]
pub(crate) fn move_pair(
    direction: Direction,
    pair: &PairMove,
    at: usize,
    glyphs: &mut [GlyphInfo],
    positions: &mut [GlyphPosition],
) -> usize {
    add(direction, &pair.first_value, at, positions);
    add(direction, &pair.second_value, pair.second, positions);
    if pair.has_second {
        flag_up_to(true, at, pair.second + 1, glyphs);
        return pair.second + 1;
    }
    let vertical = is_vertical(direction);
    let has_values =
        does_move(vertical, &pair.first_value) || does_move(vertical, &pair.second_value);
    flag_up_to(has_values, at, pair.second, glyphs);
    pair.second
}

// A mark's position where it is attached.
fn with_mark(mark: &MarkMove, at: usize, position: GlyphPosition) -> GlyphPosition {
    if mark.to < at && at - mark.to <= 32768 {
        return GlyphPosition {
            x_offset: mark.x,
            y_offset: mark.y,
            var: (65536 - (at - mark.to)) as u32 + 65536,
            ..position
        };
    }
    GlyphPosition {
        var: position.var / 65536 * 65536,
        ..position
    }
}

// Attaches a mark, and returns the place that comes next.
pub(crate) fn move_mark(
    mark: &MarkMove,
    at: usize,
    glyphs: &mut [GlyphInfo],
    positions: &mut [GlyphPosition],
) -> usize {
    flag_up_to(true, mark.to, at, glyphs);
    positions[at] = with_mark(mark, at, positions[at]);
    at + 1
}
