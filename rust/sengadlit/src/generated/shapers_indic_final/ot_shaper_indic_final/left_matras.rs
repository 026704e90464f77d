// Generated from crates/shapers_indic_final/src/ot_shaper_indic_final/left_matras.rt by rust/erase; edit the source.

//! The left matras of one syllable moved to their place, in time that is linear in the syllable.
//! Each merges with all behind it up to the base. So at any time at most two ranges of glyphs are in
//! clusters that merges have given them: the matras that have gone with what follows them, and
//! glyphs directly before them. These clusters are written behind the last merge, as the matras
//! move behind it.

use super::matras::is_left;
use super::moves::{matra_placements, move_matra, write_matra};
use super::reph::is_moving_reph;
use crate::generated::shapers_base::buffer::{
    Arranged, Buffer, BufferClusterLevel, GlyphInfo, IntoCluster, Placement, Placements,
};

// What merges have put into two clusters, which aren't written yet: where the glyphs before the
// matras start, up to these, and their cluster; the place behind the glyphs from the matras on, and
// their cluster.
#[derive(Clone, Copy)]
struct MergedRanges {
    start: usize,
    before: u32,
    end: usize,
    cluster: u32,
}

// Moves the left matras before place `target` of the syllable from `start` to `end` there, the last
// one first, and merges each with all up to place `base_end`.
#[inline]
pub(super) fn gather_matras(
    target: usize,
    base_end: usize,
    others: bool,
    buffer: &mut Buffer,
    start: usize,
    end: usize,
) -> Placements {
    for i in (0..target).rev() {
        if is_left(&buffer.glyphs()[start..end][i]) {
            if !others && moves_alone(i, buffer.glyphs(), start) {
                write_matra(buffer, start, end, base_end, i, target);
                return Placements::STAY;
            }
            let moves = move_matra(buffer, start, end, base_end, i, target);
            return bring_matras_on(i, target, base_end, moves, buffer, start, end);
        }
    }
    Placements::STAY
}

// Whether the left matra of place `matra` of the syllable from `start` on moves alone: none stands
// before it, and what begins the syllable behind it is no reph that moves.
#[inline]
fn moves_alone(matra: usize, glyphs: &[GlyphInfo], start: usize) -> bool {
    let first = if matra == 0 { start + 1 } else { start };
    !any_left(&glyphs[start..start + matra]) && !is_moving_reph(&glyphs[first])
}

// Whether some glyph is a left matra.
#[inline]
fn any_left(glyphs: &[GlyphInfo]) -> bool {
    glyphs.iter().any(is_left)
}

// Moves the left matras before place `top` of the syllable from `start` to `end` on to the places
// before `target`, where one stands that has moved there from `top` and merged with all up to place
// `base_end`, and merges each.
fn bring_matras_on(
    top: usize,
    target: usize,
    base_end: usize,
    moves: Placements,
    buffer: &mut Buffer,
    start: usize,
    end: usize,
) -> Placements {
    if !has_left(start, start + top, &buffer.arranged(&moves, start, end)) {
        return moves;
    }
    let ranges = merged_ranges(
        top,
        target,
        base_end,
        &buffer.arranged(&moves, start, end),
        start,
    );
    let len = len_staying(
        start,
        start + top,
        &buffer.arranged(&moves, start, end),
        ranges.start,
        start + target,
    );
    let at = list_matras(top, target, buffer, start, end);
    let listed = Placements {
        first: Placement::Listed,
        second: Placement::Stays,
        third: Placement::Stays,
    };
    merge_stretch(&listed, buffer, start, end, at - len, at, ranges.before);
    merge_stretch(&listed, buffer, start, end, at, ranges.end, ranges.cluster);
    listed
}

// Whether some glyph from place `start` to `end` is a left matra.
#[inline]
fn has_left(start: usize, end: usize, glyphs: &Arranged) -> bool {
    for i in start..end {
        if is_left(&glyphs.get(i)) {
            return true;
        }
    }
    false
}

// What the merges of the left matras before place `top` of the syllable from `start` on make, as
// `bring_matras_on`.
#[inline]
fn merged_ranges(
    top: usize,
    target: usize,
    base_end: usize,
    glyphs: &Arranged,
    start: usize,
) -> MergedRanges {
    let mut ranges = MergedRanges {
        start: start + target - 1,
        before: glyphs.get(start + target - 1).cluster,
        end: start + base_end,
        cluster: glyphs.get(start + target).cluster,
    };
    for i in (0..top).rev() {
        if is_left(&glyphs.get(start + i)) {
            ranges = with_matra(start + i, start + top, glyphs, ranges);
        }
    }
    ranges
}

// The ranges after the merge of the left matra at place `matra`; those between it and `top` have
// gone.
fn with_matra(matra: usize, top: usize, glyphs: &Arranged, ranges: MergedRanges) -> MergedRanges {
    let own = if matra < ranges.start {
        glyphs.get(matra).cluster
    } else {
        ranges.before
    };
    let cluster = own.min(ranges.cluster);
    let end = ranges.end + glyphs.cluster_behind(ranges.end, ranges.cluster);
    if own == ranges.before {
        let start = reached(matra, top, glyphs, ranges.start, own);
        MergedRanges {
            start,
            before: cluster,
            end,
            cluster,
        }
    } else {
        MergedRanges {
            end,
            cluster,
            ..ranges
        }
    }
}

// Whether a left matra that has gone stood at `index`: those from `from` on and before `top` have.
#[inline]
fn has_gone(from: usize, top: usize, glyphs: &Arranged, index: usize) -> bool {
    from <= index && index < top && is_left(&glyphs.get(index))
}

// How far to the left glyphs before place `start` are in a cluster, but for matras that have gone.
#[inline]
fn reached(from: usize, top: usize, glyphs: &Arranged, start: usize, cluster: u32) -> usize {
    for j in (0..start).rev() {
        if !is_passed(from, top, glyphs, j, cluster) {
            return j + 1;
        }
    }
    0
}

// Whether what stood at `index` has gone, or is in a cluster.
#[inline]
fn is_passed(from: usize, top: usize, glyphs: &Arranged, index: usize, cluster: u32) -> bool {
    has_gone(from, top, glyphs, index) || glyphs.get(index).cluster == cluster
}

// How many glyphs from place `start` to `end` have stayed.
#[inline]
fn len_staying(from: usize, top: usize, glyphs: &Arranged, start: usize, end: usize) -> usize {
    let mut len = 0;
    for j in start..end {
        if !has_gone(from, top, glyphs, j) {
            len += 1;
        }
    }
    len
}

// Whether place `index` is listed: of what has gone, or of what has stayed.
#[inline]
fn is_listed(gone: bool, from: usize, top: usize, glyphs: &Arranged, index: usize) -> bool {
    has_gone(from, top, glyphs, index) == gone
}

// In the syllable from `start` to `end`, where the glyph of place `matra` has gone to `target`,
// lists where what has gone of the left matras before it, or what has stayed, of the places from
// `from` to `to` came from, from place `at` on. Returns the place behind them.
fn list_places(
    gone: bool,
    matra: usize,
    target: usize,
    buffer: &mut Buffer,
    start: usize,
    end: usize,
    from: usize,
    to: usize,
    at: usize,
) -> usize {
    let moves = matra_placements(start, matra, target);
    let mut at = at;
    for k in from..to {
        if is_listed(
            gone,
            start,
            start + matra,
            &buffer.arranged(&moves, start, end),
            k,
        ) {
            let place = buffer.arranged_place(&moves, start, end, k);
            buffer.set_place(at, place);
            at += 1;
        }
    }
    at
}

// In the syllable from `start` to `end`, where the glyph of place `matra` has gone to `target`,
// lists where each comes from if the left matras before it go before it. Returns the place of the
// first of them.
fn list_matras(
    matra: usize,
    target: usize,
    buffer: &mut Buffer,
    start: usize,
    end: usize,
) -> usize {
    let at = list_places(
        false,
        matra,
        target,
        buffer,
        start,
        end,
        start,
        start + target,
        start,
    );
    let behind = list_places(
        true,
        matra,
        target,
        buffer,
        start,
        end,
        start,
        start + target,
        at,
    );
    list_places(
        false,
        matra,
        target,
        buffer,
        start,
        end,
        start + target,
        end,
        behind,
    );
    at
}

// Puts the glyphs from `from` to `to` of a text whose syllable from `start` to `end` has moved into
// a cluster, at a level that merges.
fn merge_stretch(
    moves: &Placements,
    buffer: &mut Buffer,
    start: usize,
    end: usize,
    from: usize,
    to: usize,
    cluster: u32,
) {
    match buffer.cluster_level() {
        BufferClusterLevel::MonotoneGraphemes | BufferClusterLevel::MonotoneCharacters => {
            buffer.change_arranged(moves, start, end, from, to, &IntoCluster(cluster));
        }
        BufferClusterLevel::Characters => {}
    }
}
