// Generated from crates/shapers_position/src/ot_shape_position/positions.rt by rust/erase; edit the source.

//! Changes of positions, each by its glyph.

use crate::generated::shapers_base::buffer::{Buffer, GlyphInfo, GlyphPosition, PositionedWalk};

/// A change of a position, by the glyph that has it.
pub(super) trait PositionChange {
    /// Changes the position.
    fn change(&self, glyph: &GlyphInfo, position: &mut GlyphPosition);
}

// Changes each position of the buffer. A change that panics leaves the empty buffer, and no text with
// some of its positions changed.
#[inline]
pub(super) fn change_positions<C: PositionChange>(change: &C, buffer: &mut Buffer) {
    if buffer.positions_len() > 0 {
        buffer.walk_positioned_outside(&Changing { change });
    }
}

// The walk over the positions of a text.
struct Changing<'a, C: PositionChange> {
    change: &'a C,
}

impl<'a, C: PositionChange> PositionedWalk for Changing<'a, C> {
    #[inline]
    fn walk(&self, glyphs: &mut [GlyphInfo], positions: &mut [GlyphPosition]) {
        change_each_position(self.change, glyphs, positions);
    }
}

// Changes the position of each of these glyphs.
#[inline]
pub(super) fn change_each_position<C: PositionChange>(
    change: &C,
    glyphs: &[GlyphInfo],
    positions: &mut [GlyphPosition],
) {
    for (i, position) in positions.iter_mut().enumerate() {
        change.change(&glyphs[i], position);
    }
}
