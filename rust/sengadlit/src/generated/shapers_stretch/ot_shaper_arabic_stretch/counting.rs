// Generated from crates/shapers_stretch/src/ot_shaper_arabic_stretch/counting.rt by rust/erase; edit the source.

//! The first pass over a text whose marks stretch: whether all its numbers fit, and how many cells
//! it gains. A sequence takes one step for each of its tiles, and none for a copy.

use super::measuring::{Lay, advance_of, fits_i32, lay_of, measure};
use super::parts::{last_part, repeats};
use crate::generated::shapers_base::buffer::{GlyphInfo, GlyphPosition};
use crate::generated::shapers_base::font::Font;
use crate::generated::shapers_base::plan::StretchStart;

/// How many cells a text has more when it is stretched, unless one of its numbers doesn't fit 32
/// bits.
#[inline]
pub(super) fn count_added<F: Font>(
    font: &F,
    choice: StretchStart,
    right_to_left: bool,
    glyphs: &[GlyphInfo],
    positions: &[GlyphPosition],
) -> Option<u128> {
    let mut added = 0;
    let mut end = glyphs.len();
    while 0 < end {
        let last = count_last(
            font,
            choice,
            right_to_left,
            &glyphs[..end],
            &positions[..end],
        )?;
        added += last.added as u128;
        end = last.start;
    }
    Some(added)
}

// Where the last part of a text begins, and how many cells it gains.
#[derive(Clone, Copy)]
struct Counted {
    start: usize,
    added: usize,
}

// Counts the last part of a text, unless one of its numbers doesn't fit 32 bits.
#[inline]
fn count_last<F: Font>(
    font: &F,
    choice: StretchStart,
    right_to_left: bool,
    glyphs: &[GlyphInfo],
    positions: &[GlyphPosition],
) -> Option<Counted> {
    let part = last_part(glyphs);
    let start = part.start;
    let tiles = &glyphs[part.tiles..];
    if tiles.is_empty() {
        return Some(Counted { start, added: 0 });
    }
    let word = &positions[part.word..part.tiles];
    let added = count_sequence(font, choice, right_to_left, word, tiles)?;
    Some(Counted { start, added })
}

// How many copies a sequence adds, unless one of its numbers doesn't fit 32 bits.
#[inline]
fn count_sequence<F: Font>(
    font: &F,
    choice: StretchStart,
    right_to_left: bool,
    word: &[GlyphPosition],
    tiles: &[GlyphInfo],
) -> Option<usize> {
    let sequence = measure(font, word, tiles)?;
    let lay = lay_of(choice, right_to_left, sequence)?;
    if offsets_fit(font, right_to_left, lay, tiles) {
        Some(lay.added * sequence.repeaters)
    } else {
        None
    }
}

// Whether the offsets of all copies of a sequence fit 32 bits.
#[inline]
fn offsets_fit<F: Font>(font: &F, right_to_left: bool, lay: Lay, tiles: &[GlyphInfo]) -> bool {
    let mut pen = lay.start;
    let mut left = tiles.len();
    while 0 < left {
        left -= 1;
        match behind_tile(font, right_to_left, lay, pen, &tiles[left]) {
            Some(behind) => pen = behind,
            None => return false,
        }
    }
    true
}

// Where the pen is behind the copies of a tile, unless an offset of theirs doesn't fit 32 bits.
#[inline]
fn behind_tile<F: Font>(
    font: &F,
    right_to_left: bool,
    lay: Lay,
    pen: i64,
    tile: &GlyphInfo,
) -> Option<i64> {
    let width = advance_of(font, tile);
    let behind = behind_copy(right_to_left, pen, i64::from(width))?;
    if !repeats(tile) {
        return Some(behind);
    }
    behind_copies(right_to_left, behind, step_of(width, lay), lay.added)
}

// How far each added copy of a tile moves the pen.
#[inline]
fn step_of(width: i32, lay: Lay) -> i64 {
    i64::from(width) - lay.overlap
}

// Where the pen is behind a copy that moves it so far, unless the copy's offset doesn't fit 32
// bits.
#[inline]
fn behind_copy(right_to_left: bool, pen: i64, step: i64) -> Option<i64> {
    if fits_i32(first_offset(right_to_left, pen, step)) {
        Some(moved(right_to_left, pen, step))
    } else {
        None
    }
}

// The same behind so many copies that each move the pen so far: they stand at equal distances, so
// that the first and the last tell.
#[inline]
fn behind_copies(right_to_left: bool, pen: i64, step: i64, count: usize) -> Option<i64> {
    if count == 0 {
        return Some(pen);
    }
    let behind = moved(right_to_left, pen, product(count, step));
    if ends_fit(right_to_left, pen, behind, step) {
        Some(behind)
    } else {
        None
    }
}

// Whether the offsets of the first and the last of copies at equal distances fit 32 bits.
#[inline]
fn ends_fit(right_to_left: bool, pen: i64, behind: i64, step: i64) -> bool {
    fits_i32(first_offset(right_to_left, pen, step))
        && fits_i32(last_offset(right_to_left, behind, step))
}

// The offset of the first of such copies.
#[inline]
fn first_offset(right_to_left: bool, pen: i64, step: i64) -> i64 {
    if right_to_left { pen - step } else { pen }
}

// The offset of the last of them.
#[inline]
fn last_offset(right_to_left: bool, behind: i64, step: i64) -> i64 {
    if right_to_left { behind } else { behind - step }
}

// How far so many copies move the pen.
#[inline]
fn product(count: usize, step: i64) -> i64 {
    count as i64 * step
}

/// Where the pen is when it has moved so far.
#[inline]
pub(super) fn moved(right_to_left: bool, pen: i64, move_by: i64) -> i64 {
    if right_to_left {
        pen - move_by
    } else {
        pen + move_by
    }
}
