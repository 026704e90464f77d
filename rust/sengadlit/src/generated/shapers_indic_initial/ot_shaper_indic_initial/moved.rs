// Generated from crates/shapers_indic_initial/src/ot_shaper_indic_initial/moved.rt by rust/erase; edit the source.

//! A syllable whose first moves aren't written yet: what comes later reads it as it will be.

use crate::generated::shapers_base::buffer::{Buffer, GlyphInfo, Placement, Placements};

/// A syllable, and the placements of its first two moves, neither of which is listed.
#[derive(Clone, Copy)]
pub(super) struct MovedSyllable {
    pub(super) first: Placement,
    pub(super) second: Placement,
    pub(super) start: usize,
    pub(super) end: usize,
}

impl MovedSyllable {
    /// The moves, and one behind them.
    #[inline]
    pub(super) fn moves_then(&self, third: Placement) -> Placements {
        Placements {
            first: self.first,
            second: self.second,
            third,
        }
    }

    /// Whether both moves leave all where it is.
    #[inline]
    pub(super) fn stays(&self) -> bool {
        self.moves_then(Placement::Stays).moves_nothing()
    }

    /// Writes the syllable by the moves and one behind them. It takes no memory.
    //
    // It is always inlined: in the copies of its callers for what stays rustc knows that the first two
    // moves move nothing, and no test is left.
    #[inline(always)]
    pub(super) fn write_then(&self, buffer: &mut Buffer, third: Placement) {
        if self.stays() {
            buffer.apply(self.start, self.end, third);
        } else {
            self.write_moved(buffer, third);
        }
    }

    // Writes the moves as `write_then`, where one of the first two moves something. It takes a copy, so
    // that the syllable needs no place in memory where it is known.
    #[cold]
    #[inline(never)]
    fn write_moved(self, buffer: &mut Buffer, third: Placement) {
        buffer.apply_all(self.start, self.end, &self.moves_then(third));
    }

    /// The glyph at `index` of the text so moved.
    #[inline]
    pub(super) fn glyph(&self, buffer: &Buffer, index: usize) -> GlyphInfo {
        let moves = self.moves_then(Placement::Stays);
        if moves.moves_nothing() {
            return buffer.get(index);
        }
        buffer.arranged(&moves, self.start, self.end).get(index)
    }
}
