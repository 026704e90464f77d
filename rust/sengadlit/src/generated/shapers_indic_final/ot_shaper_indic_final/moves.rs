// Generated from crates/shapers_indic_final/src/ot_shaper_indic_final/moves.rt by rust/erase; edit the source.

//! One glyph moved to the other end of a stretch, as a placement, and what merges with it.

use crate::generated::shapers_base::buffer::{Buffer, Placement, Placements};

// Merges the syllable from `start` to `end`, moved so far, up to its place `target`, and moves its
// first glyph, the reph, there.
#[inline]
pub(super) fn move_reph(
    moves: Placements,
    buffer: &mut Buffer,
    start: usize,
    end: usize,
    target: usize,
) -> Placements {
    buffer.merge_arranged(&moves, start, end, start, start + target + 1);
    Placements {
        first: moves.first,
        second: first_last(start, start + target + 1),
        third: moves.third,
    }
}

// Merges the syllable from `start` to `end`, moved so far, from its place `target` up to its place
// `from`, and moves the glyph of place `from`, which `pref` formed, to `target`.
#[inline]
pub(super) fn move_pref(
    moves: Placements,
    buffer: &mut Buffer,
    start: usize,
    end: usize,
    target: usize,
    from: usize,
) -> Placements {
    buffer.merge_arranged(&moves, start, end, start + target, start + from + 1);
    Placements {
        first: moves.first,
        second: moves.second,
        third: last_first(start + target, start + from + 1),
    }
}

// Moves the glyph of place `matra` of the syllable from `start` to `end`, a left matra, to its
// place `target`, and merges from there up to its place `base_end`.
#[inline]
pub(super) fn move_matra(
    buffer: &mut Buffer,
    start: usize,
    end: usize,
    base_end: usize,
    matra: usize,
    target: usize,
) -> Placements {
    let moves = matra_placements(start, matra, target);
    buffer.merge_arranged(&moves, start, end, start + target, start + base_end);
    moves
}

// Moves and merges one left matra as `move_matra`, and writes it at once, where nothing else of the
// syllable moves.
#[inline]
pub(super) fn write_matra(
    buffer: &mut Buffer,
    start: usize,
    end: usize,
    base_end: usize,
    matra: usize,
    target: usize,
) {
    buffer.apply(start, end, first_last(start + matra, start + target + 1));
    buffer.merge_clusters(start + target, start + base_end);
}

// The glyph of place `matra` of a syllable from `start` on moved to its place `target`, behind
// others.
#[inline]
pub(super) fn matra_placements(start: usize, matra: usize, target: usize) -> Placements {
    Placements {
        first: first_last(start + matra, start + target + 1),
        second: Placement::Stays,
        third: Placement::Stays,
    }
}

// The first glyph of the stretch from `start` to `end` behind the others.
#[inline]
fn first_last(start: usize, end: usize) -> Placement {
    Placement::Forward {
        to: start,
        from: start + 1,
        count: end - start - 1,
    }
}

// The last glyph of the stretch from `start` to `end` before the others.
#[inline]
fn last_first(start: usize, end: usize) -> Placement {
    Placement::Forward {
        to: start,
        from: end - 1,
        count: 1,
    }
}
