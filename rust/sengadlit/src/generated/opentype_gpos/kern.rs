// Generated from crates/opentype_gpos/src/kern.rt by rust/erase; edit the source.

//! Pairs of glyphs by the table `kern`.

use crate::generated::opentype_face::bytes::{table_at, u8_at, u16_at, u32_at};
use crate::generated::opentype_gpos::finish::{is_backward, let_go};
use crate::generated::opentype_gpos::joins::with_across;
use crate::generated::opentype_gpos::moved::{flag_up_to, is_vertical};
use crate::generated::opentype_gpos::nearby::{next_glyph, number};
use crate::generated::opentype_layout::sight::Sight;
use crate::generated::shapers_buffer::buffer::{
    Buffer, Direction, GlyphInfo, GlyphPosition, PositionedWalk,
};

// The record of a pair, among so many of six bytes from byte 14 on. (It is searched for here, since
// each record is read once, and distances that the code knows make a step shorter.)
fn find_listed(bytes: &[u8], count: u16, pair: u32) -> Option<u32> {
    let (mut low, mut high) = (0, u32::from(count));
    while low < high {
        let middle = (low + high - 1) / 2;
        let found = u32_at(bytes, 14 + middle as usize * 6);
        if pair < found {
            high = middle;
        } else if found < pair {
            low = middle + 1;
        } else {
            return Some(middle);
        }
    }
    None
}

// What a list of pairs says of one.
fn listed_value(bytes: &[u8], left: u16, right: u16) -> u16 {
    let pair = 65536 * u32::from(left) + u32::from(right);
    match find_listed(bytes, u16_at(bytes, 6), pair) {
        Some(i) => u16_at(bytes, 18 + i as usize * 6),
        None => 0,
    }
}

// The class of a glyph by a subtable of format 2.
fn class_of(classes: &[u8], glyph: u16) -> Option<u16> {
    let first = u16_at(classes, 0);
    if glyph < first || glyph - first >= u16_at(classes, 2) {
        return None;
    }
    match u16_at(classes, 4 + usize::from(glyph - first) * 2) {
        1 => None,
        class => Some(class),
    }
}

// What a subtable says of a pair, in two bytes.
fn value(bytes: &[u8], left: u16, right: u16) -> u16 {
    match u8_at(bytes, 4) {
        0 => listed_value(bytes, left, right),
        2 => {
            let left = class_of(table_at(bytes, usize::from(u16_at(bytes, 8))), left);
            let right = class_of(table_at(bytes, usize::from(u16_at(bytes, 10))), right);
            let array = usize::from(u16_at(bytes, 12));
            match (left, right) {
                (Some(left), Some(right)) => {
                    let place = usize::from(left) + usize::from(right);
                    if place < array {
                        return 0;
                    }
                    u16_at(bytes, array + (place - array) / 2 * 2)
                }
                _ => 0,
            }
        }
        _ => 0,
    }
}

#[inline]
fn whole(value: u16) -> i32 {
    if value < 32768 {
        i32::from(value)
    } else {
        i32::from(value) - 65536
    }
}

#[inline]
fn half(value: u16) -> i32 {
    if value < 32768 {
        i32::from(value / 2)
    } else {
        i32::from(value / 2) - 32768
    }
}

#[inline]
fn rest(value: u16) -> i32 {
    whole(value) - half(value)
}

#[inline]
fn with_half(vertical: bool, value: u16, position: GlyphPosition) -> GlyphPosition {
    let half = half(value);
    if vertical {
        return GlyphPosition {
            y_advance: position.y_advance.saturating_add(half),
            ..position
        };
    }
    GlyphPosition {
        x_advance: position.x_advance.saturating_add(half),
        ..position
    }
}

#[inline]
fn with_rest(vertical: bool, value: u16, position: GlyphPosition) -> GlyphPosition {
    let rest = rest(value);
    if vertical {
        return GlyphPosition {
            y_advance: position.y_advance.saturating_add(rest),
            y_offset: position.y_offset.saturating_add(rest),
            ..position
        };
    }
    GlyphPosition {
        x_advance: position.x_advance.saturating_add(rest),
        x_offset: position.x_offset.saturating_add(rest),
        ..position
    }
}

// Moves two glyphs by a value.
fn kern_pair(
    vertical: bool,
    across: bool,
    value: u16,
    i: usize,
    j: usize,
    positions: &mut [GlyphPosition],
) {
    if across {
        positions[j] = with_across(vertical, whole(value), positions[j]);
        return;
    }
    positions[i] = with_half(vertical, value, positions[i]);
    positions[j] = with_rest(vertical, value, positions[j]);
}

#[inline]
pub(crate) fn is_across(bytes: &[u8]) -> bool {
    u8_at(bytes, 5) / 4 % 2 == 1
}

#[inline]
fn is_for(direction: Direction, bytes: &[u8]) -> bool {
    let is_horizontal = u8_at(bytes, 5) % 2 == 1;
    if is_vertical(direction) {
        return !is_horizontal;
    }
    is_horizontal
}

#[inline]
fn sight(mask: u32) -> Sight {
    Sight {
        flag: 8,
        set: 0,
        mask,
        syllable: 0,
        over_zwnj: true,
        over_zwj: true,
        of_gpos: true,
    }
}

// What a subtable does at a glyph; returns the place that comes next.
fn step(
    bytes: &[u8],
    mask: u32,
    vertical: bool,
    glyphs: &mut [GlyphInfo],
    positions: &mut [GlyphPosition],
    at: usize,
) -> usize {
    if glyphs[at].mask & mask == 0 {
        return at + 1;
    }
    match next_glyph(&[], &sight(mask), glyphs, at + 1) {
        Some(j) => {
            let value = value(bytes, number(&glyphs[at]), number(&glyphs[j]));
            if value != 0 {
                flag_up_to(true, at, j, glyphs);
                kern_pair(vertical, is_across(bytes), value, at, j, positions);
            }
            j
        }
        None => at + 1,
    }
}

// Moves pairs along a text.
fn move_pairs(
    bytes: &[u8],
    mask: u32,
    vertical: bool,
    glyphs: &mut [GlyphInfo],
    positions: &mut [GlyphPosition],
) {
    let mut at = 0;
    for _ in 0..glyphs.len() {
        if at >= glyphs.len() {
            return;
        }
        at = step(bytes, mask, vertical, glyphs, positions, at);
    }
}

// Attaches each glyph to the one so many places away, in a line.
fn set_steps(step: u32, positions: &mut [GlyphPosition]) {
    for position in positions.iter_mut() {
        position.var = step + 131072;
    }
}

// Attaches each glyph but the first one to another, in a line.
fn line_up(step: u32, positions: &mut [GlyphPosition]) {
    set_steps(step, positions);
    if !positions.is_empty() {
        let_go(positions, 0);
    }
}

#[inline]
fn line_step(direction: Direction) -> u32 {
    if is_backward(direction) { 1 } else { 65535 }
}

// What a subtable makes of a text as it is drawn.
fn kern_along(
    bytes: &[u8],
    mask: u32,
    direction: Direction,
    glyphs: &mut [GlyphInfo],
    positions: &mut [GlyphPosition],
) {
    if is_across(bytes) {
        line_up(line_step(direction), positions);
    }
    move_pairs(bytes, mask, is_vertical(direction), glyphs, positions);
}

// The same, if the subtable is for lines of this direction.
fn kern_by(
    mask: u32,
    direction: Direction,
    bytes: &[u8],
    glyphs: &mut [GlyphInfo],
    positions: &mut [GlyphPosition],
) {
    if is_for(direction, bytes) {
        kern_along(bytes, mask, direction, glyphs, positions);
    }
}

// The subtables, one after another.
fn kern_by_subtables(
    count: u16,
    mask: u32,
    direction: Direction,
    bytes: &[u8],
    glyphs: &mut [GlyphInfo],
    positions: &mut [GlyphPosition],
) {
    let mut bytes = bytes;
    for _ in 0..count {
        let len = u16_at(bytes, 2);
        if len < 6 {
            return;
        }
        kern_by(mask, direction, bytes, glyphs, positions);
        bytes = table_at(bytes, usize::from(len));
    }
}

// Reverses a backward text.
#[inline]
fn reverse_backward(
    direction: Direction,
    glyphs: &mut [GlyphInfo],
    positions: &mut [GlyphPosition],
) {
    if is_backward(direction) {
        glyphs.reverse();
        positions.reverse();
    }
}

// What the table makes of a text.
fn kern_text(
    table: &[u8],
    mask: u32,
    direction: Direction,
    glyphs: &mut [GlyphInfo],
    positions: &mut [GlyphPosition],
) {
    if u16_at(table, 0) != 0 {
        return;
    }
    reverse_backward(direction, glyphs, positions);
    let (count, bytes) = (u16_at(table, 2), table_at(table, 4));
    kern_by_subtables(count, mask, direction, bytes, glyphs, positions);
    reverse_backward(direction, glyphs, positions);
}

// A walk that moves pairs.
struct Kerning<'a> {
    table: &'a [u8],
    mask: u32,
    direction: Direction,
}

impl<'a> PositionedWalk for Kerning<'a> {
    fn walk(&self, glyphs: &mut [GlyphInfo], positions: &mut [GlyphPosition]) {
        kern_text(self.table, self.mask, self.direction, glyphs, positions);
    }
}

/// Moves pairs of glyphs, of those whose mask has a bit of this one, by the table `kern` of version 0:
/// formats 0 and 2, in font units. It writes positions and glyph flags alone.
///
/// <details><summary>Contract</summary>
///
/// # Contract
///
/// ```text
/// requires { length buffer.old.positions ≡ length buffer.old.glyphs }
/// ensures { buffer.new ≡ kerned table.now mask buffer.old }
/// ```
///
/// - `kerned`: `crates/opentype_gpos/specs/Kerned.antt`
///
/// </details>
pub fn kern(table: &[u8], mask: u32, buffer: &mut Buffer) {
    let len = buffer.len();
    buffer.unsafe_to_concat(0, len);
    let kerning = Kerning {
        table,
        mask,
        direction: buffer.direction(),
    };
    buffer.walk_positioned(&kerning);
}
