// Generated from crates/shapers_stretch/src/ot_shaper_arabic_stretch/tiles.rt by rust/erase; edit the source.

//! The second pass over a text whose marks stretch: from behind, in place, each sequence is laid
//! over its word. The writer never overtakes the reader.

use super::counting::moved;
use super::measuring::{Lay, advance_of, lay_of_sequence};
use super::parts::{LastPart, last_part, repeats};
use crate::generated::shapers_base::buffer::{
    GlyphInfo, GlyphPosition, PositionedWalk, unsafe_to_break_in,
};
use crate::generated::shapers_base::font::Font;
use crate::generated::shapers_base::plan::StretchStart;
use core::ops::Range;

/// How the tiles of a text are laid, over slices whose first `len` cells are the text in working
/// order, and which are just as long as the stretched text.
#[derive(Clone, Copy)]
pub(super) struct TileLaying<'a, F> {
    pub(super) font: &'a F,
    pub(super) choice: StretchStart,
    pub(super) right_to_left: bool,
    pub(super) len: usize,
}

impl<'a, F: Font> PositionedWalk for TileLaying<'a, F> {
    #[inline]
    fn walk(&self, glyphs: &mut [GlyphInfo], positions: &mut [GlyphPosition]) {
        self.lay_all(glyphs, positions);
    }
}

impl<'a, F: Font> TileLaying<'a, F> {
    // Stretches the text of the first `len` cells over the whole slices.
    #[inline]
    fn lay_all(&self, glyphs: &mut [GlyphInfo], positions: &mut [GlyphPosition]) {
        let mut unlaid = Unlaid {
            end: self.len,
            place: glyphs.len(),
        };
        while 0 < unlaid.end {
            unlaid = self.lay_last(glyphs, positions, unlaid);
        }
    }

    // Lays the last part of the unlaid text: its sequence first, then what stands before it moves
    // up.
    #[inline]
    fn lay_last(
        &self,
        glyphs: &mut [GlyphInfo],
        positions: &mut [GlyphPosition],
        unlaid: Unlaid,
    ) -> Unlaid {
        let part = last_part(&glyphs[..unlaid.end]);
        if part.tiles == unlaid.end {
            move_up(glyphs, positions, part.start, part.tiles, unlaid.place);
            return Unlaid {
                end: part.start,
                place: unlaid.place - (part.tiles - part.start),
            };
        }
        let place = self.lay_sequence(glyphs, positions, part, unlaid);
        move_up(glyphs, positions, part.start, part.tiles, place);
        Unlaid {
            end: part.start,
            place: place - (part.tiles - part.start),
        }
    }

    // Lays the sequence of the last part, and flags it and its word; where it then begins.
    fn lay_sequence(
        &self,
        glyphs: &mut [GlyphInfo],
        positions: &mut [GlyphPosition],
        part: LastPart,
        unlaid: Unlaid,
    ) -> usize {
        let found = lay_of_sequence(
            self.font,
            self.choice,
            self.right_to_left,
            &positions[part.word..part.tiles],
            &glyphs[part.tiles..unlaid.end],
        );
        unsafe_to_break_in(glyphs, part.word, unlaid.end);
        match found {
            Some(lay) => {
                let pen = Pen {
                    at: lay.start,
                    place: unlaid.place,
                };
                let tiles = part.tiles..unlaid.end;
                self.lay_tiles(lay, glyphs, positions, tiles, pen).place
            }
            None => unreachable!("a sequence whose copies were counted has no lay"),
        }
    }

    // Lays these tiles, the last one first.
    #[inline]
    fn lay_tiles(
        &self,
        lay: Lay,
        glyphs: &mut [GlyphInfo],
        positions: &mut [GlyphPosition],
        tiles: Range<usize>,
        pen: Pen,
    ) -> Pen {
        let mut pen = pen;
        for i in (tiles.start..tiles.end).rev() {
            let tile = Tile {
                glyph: glyphs[i],
                position: positions[i],
            };
            pen = self.lay_tile(lay, glyphs, positions, tile, pen);
        }
        pen
    }

    // Lays a tile, and where it repeats the added copies of it.
    #[inline]
    fn lay_tile(
        &self,
        lay: Lay,
        glyphs: &mut [GlyphInfo],
        positions: &mut [GlyphPosition],
        tile: Tile,
        pen: Pen,
    ) -> Pen {
        let width = i64::from(advance_of(self.font, &tile.glyph));
        let pen = lay_copies(self.right_to_left, width, 1, glyphs, positions, tile, pen);
        if !repeats(&tile.glyph) {
            return pen;
        }
        let step = width - lay.overlap;
        let added = lay.added;
        lay_copies(
            self.right_to_left,
            step,
            added,
            glyphs,
            positions,
            tile,
            pen,
        )
    }
}

// What is still to be laid: what the text before `end` becomes, over the places before `place`.
#[derive(Clone, Copy)]
struct Unlaid {
    end: usize,
    place: usize,
}

// Moves the cells from `start` to `end` up, so that they end at `place`.
#[inline]
fn move_up(
    glyphs: &mut [GlyphInfo],
    positions: &mut [GlyphPosition],
    start: usize,
    end: usize,
    place: usize,
) {
    if end < place {
        let to = place - (end - start);
        glyphs.copy_within(start..end, to);
        positions.copy_within(start..end, to);
    }
}

// Where the pen is, and the place before which the next copy is laid.
#[derive(Clone, Copy)]
struct Pen {
    at: i64,
    place: usize,
}

// A tile with its position.
#[derive(Clone, Copy)]
struct Tile {
    glyph: GlyphInfo,
    position: GlyphPosition,
}

// Lays so many copies of a tile that each move the pen so far.
#[inline]
fn lay_copies(
    right_to_left: bool,
    step: i64,
    count: usize,
    glyphs: &mut [GlyphInfo],
    positions: &mut [GlyphPosition],
    tile: Tile,
    pen: Pen,
) -> Pen {
    let mut pen = pen;
    for _ in 0..count {
        pen = lay_copy(right_to_left, step, glyphs, positions, tile, pen);
    }
    pen
}

// Lays one copy of a tile.
#[inline]
fn lay_copy(
    right_to_left: bool,
    step: i64,
    glyphs: &mut [GlyphInfo],
    positions: &mut [GlyphPosition],
    tile: Tile,
    pen: Pen,
) -> Pen {
    let place = pen.place - 1;
    glyphs[place] = tile.glyph;
    let mut position = tile.position;
    position.x_advance = 0;
    position.x_offset = offset_of(right_to_left, pen.at, step);
    positions[place] = position;
    Pen {
        at: moved(right_to_left, pen.at, step),
        place,
    }
}

// Where a copy stands.
#[inline]
fn offset_of(right_to_left: bool, at: i64, step: i64) -> i32 {
    let offset = if right_to_left { at - step } else { at };
    i32::try_from(offset).unwrap()
}
