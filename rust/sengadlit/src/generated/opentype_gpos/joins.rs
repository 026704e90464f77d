// Generated from crates/opentype_gpos/src/joins.rt by rust/erase; edit the source.

//! Cursive lines: what moves of type 3 make of positions.

use crate::generated::opentype_gpos::anchors::Point;
use crate::generated::opentype_gpos::finish::{is_backward, let_go, target};
use crate::generated::opentype_gpos::moved::{flag_up_to, is_vertical};
use crate::generated::opentype_gpos::moves::CursiveMove;
use crate::generated::shapers_buffer::buffer::{Direction, GlyphInfo, GlyphPosition};

#[inline]
fn ending_at(vertical: bool, point: &Point, position: GlyphPosition) -> GlyphPosition {
    if vertical {
        return GlyphPosition {
            y_advance: point.y.saturating_add(position.y_offset),
            ..position
        };
    }
    GlyphPosition {
        x_advance: point.x.saturating_add(position.x_offset),
        ..position
    }
}

#[inline]
fn beginning_at(vertical: bool, point: &Point, position: GlyphPosition) -> GlyphPosition {
    if vertical {
        let moved = point.y.saturating_add(position.y_offset);
        return GlyphPosition {
            y_advance: position.y_advance.saturating_sub(moved),
            y_offset: position.y_offset.saturating_sub(moved),
            ..position
        };
    }
    let moved = point.x.saturating_add(position.x_offset);
    GlyphPosition {
        x_advance: position.x_advance.saturating_sub(moved),
        x_offset: position.x_offset.saturating_sub(moved),
        ..position
    }
}

fn end_at(vertical: bool, point: &Point, at: usize, positions: &mut [GlyphPosition]) {
    positions[at] = ending_at(vertical, point, positions[at]);
}

fn begin_at(vertical: bool, point: &Point, at: usize, positions: &mut [GlyphPosition]) {
    positions[at] = beginning_at(vertical, point, positions[at]);
}

// Brings the points of two glyphs together along the line.
fn align(direction: Direction, it: &CursiveMove, at: usize, positions: &mut [GlyphPosition]) {
    let vertical = is_vertical(direction);
    if is_backward(direction) {
        begin_at(vertical, &it.exit, it.before, positions);
        end_at(vertical, &it.entry, at, positions);
        return;
    }
    end_at(vertical, &it.exit, it.before, positions);
    begin_at(vertical, &it.entry, at, positions);
}

#[inline]
pub(crate) fn with_across(vertical: bool, off: i32, position: GlyphPosition) -> GlyphPosition {
    if vertical {
        return GlyphPosition {
            x_offset: off,
            ..position
        };
    }
    GlyphPosition {
        y_offset: off,
        ..position
    }
}

#[inline]
fn off_line(vertical: bool, position: &GlyphPosition) -> i32 {
    if vertical {
        return position.x_offset;
    }
    position.y_offset
}

#[inline]
fn between(vertical: bool, a: &Point, b: &Point) -> i32 {
    if vertical {
        return a.x.saturating_sub(b.x);
    }
    a.y.saturating_sub(b.y)
}

// What is kept of an attachment from one place to another.
fn line_var(at: usize, to: usize) -> u32 {
    if at < to {
        if to - at < 32768 {
            return (to - at) as u32 + 131072;
        }
        return 0;
    }
    if to < at && at - to <= 32768 {
        return (65536 - (at - to)) as u32 + 131072;
    }
    0
}

// The place that a glyph of a line is attached to, if that isn't its new parent.
fn next_in_line(var: u32, at: usize, parent: usize, len: usize) -> Option<usize> {
    if var / 65536 % 256 != 2 {
        return None;
    }
    match target(var, at, len) {
        Some(to) => {
            if to == parent {
                return None;
            }
            Some(to)
        }
        None => None,
    }
}

#[inline]
fn reversed_on(
    vertical: bool,
    old: &GlyphPosition,
    at: usize,
    to: usize,
    position: GlyphPosition,
) -> GlyphPosition {
    let off = 0_i32.saturating_sub(off_line(vertical, old));
    let across = with_across(vertical, off, position);
    GlyphPosition {
        var: line_var(to, at),
        ..across
    }
}

// Reverses the line from a glyph on, up to its new parent.
fn reverse_line(vertical: bool, parent: usize, start: usize, positions: &mut [GlyphPosition]) {
    let mut at = start;
    let mut old = positions[start];
    for _ in 0_usize..64 {
        let found = next_in_line(old.var, at, parent, positions.len());
        match found {
            Some(to) => {
                let next = positions[to];
                positions[to] = reversed_on(vertical, &old, at, to, next);
                old = next;
                at = to;
            }
            None => return,
        }
    }
}

#[inline]
fn is_at(place: usize, target: Option<usize>) -> bool {
    match target {
        Some(to) => to == place,
        None => false,
    }
}

// Lets a glyph go that is attached to one that is attached to it.
fn separate(vertical: bool, child: usize, parent: usize, positions: &mut [GlyphPosition]) {
    let mut position = positions[parent];
    if !is_at(child, target(position.var, parent, positions.len())) {
        return;
    }
    position.var = position.var / 65536 * 65536;
    positions[parent] = with_across(vertical, 0, position);
}

// Attaches a glyph to another, so far off it.
fn hang(vertical: bool, child: usize, parent: usize, off: i32, positions: &mut [GlyphPosition]) {
    let var = line_var(child, parent);
    if var == 0 {
        let_go(positions, child);
        return;
    }
    let across = with_across(vertical, off, positions[child]);
    positions[child] = GlyphPosition { var, ..across };
    separate(vertical, child, parent, positions);
}

fn link(vertical: bool, child: usize, parent: usize, off: i32, positions: &mut [GlyphPosition]) {
    reverse_line(vertical, parent, child, positions);
    hang(vertical, child, parent, off, positions);
}

fn join(direction: Direction, it: &CursiveMove, at: usize, positions: &mut [GlyphPosition]) {
    align(direction, it, at, positions);
    let vertical = is_vertical(direction);
    if it.from_end {
        link(
            vertical,
            it.before,
            at,
            between(vertical, &it.entry, &it.exit),
            positions,
        );
        return;
    }
    link(
        vertical,
        at,
        it.before,
        between(vertical, &it.exit, &it.entry),
        positions,
    );
}

/// Joins a glyph to the one before it, and returns the place that comes next.
///
/// <details><summary>Contract</summary>
///
/// # Contract
///
/// ```text
/// requires at { at < length positions.old }
/// requires before { it.now.before < length positions.old }
/// ensures { cursive_moved direction it.now at glyphs.old positions.old
///     ≡ record { glyphs = glyphs.new; positions = positions.new; next = result } }
/// ```
///
/// - `cursive_moved`: `crates/opentype_gpos/specs/Joined.antt`
///
/// </details>
pub fn move_cursive(
    direction: Direction,
    it: &CursiveMove,
    at: usize,
    glyphs: &mut [GlyphInfo],
    positions: &mut [GlyphPosition],
) -> usize {
    flag_up_to(true, it.before, at, glyphs);
    join(direction, it, at, positions);
    at + 1
}
