//! Where a row may wrap: between pieces that no cluster, no syllable and no line crosses.

use super::row::Row;
use sengadlit::GlyphInfo;
use std::ops::Range;

// The most glyphs of a piece.
const LONGEST: usize = 12;

/// Glyphs that stay together on the page, and those before the hook that they came from: none for
/// a piece that had to be cut where a line crosses.
pub(super) struct Piece {
    pub glyphs: Range<usize>,
    pub before: Range<usize>,
}

/// The pieces of a row, in order.
pub(super) fn pieces_of(row: &Row) -> Vec<Piece> {
    let least_after = least_from(row.origins);
    let mut pieces = Vec::new();
    let mut cutter = Cutter::new();
    for (i, pair) in row.glyphs.windows(2).enumerate() {
        let next = i + 1;
        let origin = row.origins.get(i).copied().unwrap_or(0);
        let least = least_after.get(next).copied();
        pieces.extend(cutter.cut(next, origin, least, are_joined(&pair[0], &pair[1])));
    }
    if !row.glyphs.is_empty() {
        let before = if row.origins.is_empty() {
            0
        } else {
            row.before.len()
        };
        pieces.push(cutter.piece(row.glyphs.len(), before));
    }
    pieces
}

// The piece that a walk over a row is in: where it begins, in the row and before the hook, the
// greatest place so far that a glyph came from, and whether the piece begins where no line crosses.
struct Cutter {
    start: usize,
    start_before: usize,
    greatest: usize,
    is_whole: bool,
}

impl Cutter {
    // The first piece of a row.
    fn new() -> Self {
        Cutter {
            start: 0,
            start_before: 0,
            greatest: 0,
            is_whole: true,
        }
    }

    // The piece that ends before `next`, if it may or has to: `origin` is where its last glyph came
    // from, `least` the least place that a later one came from, where that is told.
    fn cut(
        &mut self,
        next: usize,
        origin: usize,
        least: Option<usize>,
        is_joined: bool,
    ) -> Option<Piece> {
        self.greatest = self.greatest.max(origin);
        let is_crossed = least.is_some_and(|least| least <= self.greatest);
        if !is_joined && !is_crossed {
            let piece = self.piece(next, least.unwrap_or(0));
            self.start_before = least.unwrap_or(0);
            self.is_whole = true;
            return Some(piece);
        }
        if next - self.start < LONGEST {
            return None;
        }
        self.is_whole = false;
        Some(self.piece(next, 0))
    }

    // The piece up to `next`, where a new one begins.
    fn piece(&mut self, next: usize, next_before: usize) -> Piece {
        let glyphs = self.start..next;
        self.start = next;
        let before = if self.is_whole {
            self.start_before..next_before
        } else {
            0..0
        };
        Piece { glyphs, before }
    }
}

// Whether two neighbours are of one cluster or of one syllable.
fn are_joined(a: &GlyphInfo, b: &GlyphInfo) -> bool {
    a.cluster == b.cluster || a.syllable != 0 && a.syllable == b.syllable
}

// For each place of a list the least number from there on.
fn least_from(numbers: &[usize]) -> Vec<usize> {
    let mut least = usize::MAX;
    let backwards = numbers.iter().rev().map(|number| {
        least = least.min(*number);
        least
    });
    let mut least_from: Vec<usize> = backwards.collect();
    least_from.reverse();
    least_from
}
