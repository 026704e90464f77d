// Generated from crates/shapers_indic_initial/src/ot_shaper_indic_initial/cycles.rt by rust/erase; edit the source.

//! What merges once a syllable is in its new order: the cycles of the order, or all from the base
//! on.

use crate::generated::shapers_base::buffer::Buffer;

// The place that the glyph at `place` came from, both from `start` on.
#[inline]
fn old_place(buffer: &Buffer, start: usize, place: usize) -> usize {
    buffer.place(start + place).saturating_sub(start)
}

// Spends a place: it is a cycle of its own from now on.
#[inline]
fn spend_place(buffer: &mut Buffer, start: usize, place: usize) {
    buffer.set_place(start + place, start + place);
}

// Walks along the cycle of the place `first` and spends each of its places as it passes. Returns the
// least and the greatest.
#[inline]
fn spend_cycle(buffer: &mut Buffer, start: usize, end: usize, first: usize) -> (usize, usize) {
    let mut least = first;
    let mut greatest = first;
    let mut place = old_place(buffer, start, first);
    spend_place(buffer, start, first);
    for _ in start..end {
        if place == first {
            break;
        }
        let next = old_place(buffer, start, place);
        spend_place(buffer, start, place);
        least = least.min(place);
        greatest = greatest.max(place);
        place = next;
    }
    (least, greatest)
}

// Each cycle with a place from `base` on merges, from its least place, or `base` if that is
// greater, to its greatest. `base` counts from `start`.
//
// What stands before the base isn't merged here: the final reordering may bring a left matra back to
// the base, past a half form that it stood before (0915 094D 200C 0915 093F), and merges then.
#[inline]
fn merge_cycles(buffer: &mut Buffer, start: usize, end: usize, base: usize) {
    for place in base..end - start {
        if old_place(buffer, start, place) != place {
            let (least, greatest) = spend_cycle(buffer, start, end, place);
            buffer.merge_clusters(start + base.max(least), start + greatest + 1);
        }
    }
}

/// Whether all from the base on merges, and no cycles: in the older specification, which moves H's
/// about behind the base, and in a syllable of more than 127 glyphs, whose places HarfBuzz can't
/// tell apart in the byte that it keeps them in.
#[inline]
pub(super) fn merges_all(is_old_spec: bool, len: usize) -> bool {
    is_old_spec || len > 127
}

/// What merges once the glyphs from `start` to `end` are in their new order: in the older
/// specification, and in a syllable of more than 127 glyphs, all from the base on, else each cycle
/// of the order. `base` counts from `start`. It takes no memory. (HarfBuzz's issue 2272.)
#[inline]
pub(super) fn merge_ordered(
    is_old_spec: bool,
    buffer: &mut Buffer,
    start: usize,
    end: usize,
    base: usize,
) {
    if merges_all(is_old_spec, end - start) {
        buffer.merge_clusters(start + base, end);
        return;
    }
    merge_cycles(buffer, start, end, base);
}
