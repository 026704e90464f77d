//! `checks/applies` plants this in its copy of the crate: it notes what is written by placements.

use crate::generated::shapers_buffer::buffer::{Buffer, Placement};
use core::{cell::Cell, cell::RefCell, ops::Range};
use std::vec::Vec;

std::thread_local! {
    static WRITTEN: RefCell<Vec<(Range<usize>, usize)>> = const { RefCell::new(Vec::new()) };
    static SLIPS: Cell<bool> = const { Cell::new(false) };
}

pub(crate) fn note(start: usize, end: usize, placements: &[Placement]) {
    let moves = placements.iter().filter(|it| **it != Placement::Stays);
    let count = moves.count();
    if count > 0 {
        WRITTEN.with_borrow_mut(|written| written.push((start..end, count)));
    }
}

/// Where slips are wanted, writes a syllable once more, as it is.
pub(crate) fn slip(buffer: &mut Buffer, start: usize, end: usize) {
    let (to, from, count) = (start, start, 1);
    if SLIPS.get() {
        buffer.apply(start, end, Placement::Forward { to, from, count });
    }
}

/// What a call writes, with or without slips: each syllable, and by how many placements.
pub fn written(slips: bool, call: impl FnOnce()) -> Vec<(Range<usize>, usize)> {
    SLIPS.set(slips);
    call();
    WRITTEN.take()
}
