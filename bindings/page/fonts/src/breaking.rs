//! Breaking a line where no flag forbids it.

use super::shaping::Glyph;
use std::collections::BTreeMap;
use std::ops::Range;

const UNSAFE_TO_BREAK: u32 = 1;

/// The pieces, as places of a text of so many bytes, into which a line breaks that may be so wide: each
/// takes as much as fits, and at least up to the next place where no flag forbids a break.
pub fn pieces_at(glyphs: &[Glyph], length: usize, most: i64) -> Vec<Range<usize>> {
    let mut pieces = Vec::new();
    let (mut start, mut end, mut width) = (0, 0, 0);
    for (place, next) in unbroken(glyphs, length) {
        if end > start && width + next > most {
            pieces.push(start..end);
            (start, width) = (end, 0);
        }
        (end, width) = (place, width + next);
    }
    if end > start {
        pieces.push(start..end);
    }
    pieces
}

// The ends of the stretches that aren't broken, with how wide each stretch is.
fn unbroken(glyphs: &[Glyph], length: usize) -> Vec<(usize, i64)> {
    let mut clusters: BTreeMap<usize, (bool, i64)> = BTreeMap::new();
    for glyph in glyphs {
        let (is_unsafe, width) = clusters.entry(glyph.cluster as usize).or_default();
        *is_unsafe |= glyph.flags & UNSAFE_TO_BREAK != 0;
        *width += i64::from(glyph.advance);
    }
    let mut stretches = Vec::new();
    let mut width = 0;
    for (start, (is_unsafe, advance)) in clusters {
        if start > 0 && !is_unsafe {
            stretches.push((start, width));
            width = 0;
        }
        width += advance;
    }
    stretches.push((length, width));
    stretches
}

#[cfg(test)]
mod tests {
    use super::{pieces_at, Glyph};

    fn glyph(cluster: u32, flags: u32, advance: i32) -> Glyph {
        Glyph { cluster, flags, advance, ..Glyph::default() }
    }

    #[test]
    fn pieces_take_as_much_as_fits() {
        let line = [glyph(0, 0, 10), glyph(1, 0, 10), glyph(2, 1, 10), glyph(4, 0, 10)];
        assert_eq!(pieces_at(&line, 5, 40), [0..5]);
        assert_eq!(pieces_at(&line, 5, 30), [0..4, 4..5]);
        assert_eq!(pieces_at(&line, 5, 20), [0..1, 1..4, 4..5]);
        assert_eq!(pieces_at(&line, 5, 0), [0..1, 1..4, 4..5]);
        assert_eq!(pieces_at(&[], 0, 10), []);
    }

    #[test]
    fn the_order_of_glyphs_does_not_count() {
        let line = [glyph(4, 0, 10), glyph(2, 1, 10), glyph(1, 0, 10), glyph(0, 0, 10)];
        assert_eq!(pieces_at(&line, 5, 20), [0..1, 1..4, 4..5]);
    }
}
