// Generated from crates/shapers_universal/src/ot_shaper_use/ordering.rt by rust/erase; edit the source.

//! The order of a syllable: the places of its glyphs are listed in their new order, what moves
//! merges with what it passes, and then the syllable is written once.

use super::category;
use crate::generated::shapers_base::buffer::{
    Buffer, ClusterRange, GlyphInfo, Placement, ShaperError,
};
use crate::generated::shapers_syllabic::ot_shaper_syllabic::use_syllable::{
    BROKEN_CLUSTER, SAKOT_TERMINATED_CLUSTER, STANDARD_CLUSTER, VIRAMA_TERMINATED_CLUSTER,
};
use crate::generated::shapers_syllabic::ot_shaper_syllabic::{MayChange, Reorder, ReorderBySteps};

/// The order of a syllable in the universal shaper: a reph moves behind what it passes, and in each
/// piece up to a halant the vowels and modifiers before the base come to the front. (OpenType, the
/// Universal Shaping Engine.)
#[derive(Clone, Copy, Debug)]
pub struct UniversalOrder;

impl MayChange for UniversalOrder {
    #[inline]
    fn may_change(&self, glyph: &GlyphInfo) -> bool {
        glyph.category == category::R || goes_front(glyph)
    }
}

impl Reorder for UniversalOrder {
    #[inline]
    fn reorder(&self, buffer: &mut Buffer, start: usize, end: usize) -> Result<(), ShaperError> {
        if is_reordered(&buffer.glyphs()[start..end]) {
            if has_reph(&buffer.glyphs()[start..end]) {
                reorder_syllable(buffer, start, end);
            } else {
                reorder_fronts(buffer, start, end);
            }
        }
        Ok(())
    }
}

impl ReorderBySteps for UniversalOrder {}

// Reorders the syllable from `start` to `end`, in which no reph stands in front.
#[inline]
fn reorder_fronts(buffer: &mut Buffer, start: usize, end: usize) {
    if let Some((front, behind)) = first_front(buffer.glyphs(), start, end) {
        if some_go_front(&buffer.glyphs()[behind..end]) {
            reorder_syllable(buffer, start, end);
        } else {
            move_to_front(buffer, start, end, front, behind);
        }
    }
}

// The first glyph from `start` to `end` that goes to the front: where its piece starts, and the
// place behind it.
#[inline]
fn first_front(glyphs: &[GlyphInfo], start: usize, end: usize) -> Option<(usize, usize)> {
    for i in start..end {
        if goes_front(&glyphs[i]) {
            return Some((piece_start(glyphs, start, i), i + 1));
        }
    }
    None
}

// Where the piece starts in which place `index` of a syllable from `start` on stands.
#[inline]
fn piece_start(glyphs: &[GlyphInfo], start: usize, index: usize) -> usize {
    for end in (start + 1..index + 1).rev() {
        if is_halant(&glyphs[end - 1]) {
            return end;
        }
    }
    start
}

// Merges the glyphs from `front` to `behind`, of the syllable from `start` to `end`, and moves the
// last of them to their front.
#[inline]
fn move_to_front(buffer: &mut Buffer, start: usize, end: usize, front: usize, behind: usize) {
    buffer.merge_clusters(front, behind);
    let to_front = Placement::Forward {
        to: front,
        from: behind - 1,
        count: 1,
    };
    buffer.apply(start, end, to_front);
}

// Whether some glyph goes to the front of its piece.
#[inline]
fn some_go_front(glyphs: &[GlyphInfo]) -> bool {
    glyphs.iter().any(goes_front)
}

// Whether a reph stands in front: a character of that category, or what the lookups of rphf made.
#[inline]
fn has_reph(syllable: &[GlyphInfo]) -> bool {
    match syllable.first() {
        None => false,
        Some(glyph) => glyph.category == category::R,
    }
}

// Reorders the syllable from `start` to `end`.
#[inline]
fn reorder_syllable(buffer: &mut Buffer, start: usize, end: usize) {
    let behind = start + leading_reph_len(&buffer.glyphs()[start..end]);
    list_order(buffer, start, behind, end);
    buffer.merge_clusters(start, behind);
    merge_fronts(buffer, start, behind, end);
    buffer.apply(start, end, Placement::Listed);
}

// Merges each glyph from `behind` to `end` that goes to the front with all of its piece before it,
// where the first piece starts at `start`.
#[inline]
fn merge_fronts(buffer: &mut Buffer, start: usize, behind: usize, end: usize) {
    // where the piece starts, and what has merged but isn't written
    let mut front = start;
    let mut pending = ClusterRange::NONE;
    for i in behind..end {
        if goes_front(&buffer.glyphs()[i]) {
            pending = buffer.merge_range(pending, front, i + 1);
        } else if is_halant(&buffer.glyphs()[i]) {
            front = i + 1;
        }
    }
    buffer.write_range(pending);
}

// Lists the order of the syllable from `start` to `end`, of which the reph and what it passes end
// at `behind`.
#[inline]
fn list_order(buffer: &mut Buffer, start: usize, behind: usize, end: usize) {
    let next = behind + piece_len(&buffer.glyphs()[behind..end]);
    list_piece(buffer, start, behind, next);
    list_pieces(buffer, next, end);
}

// Lists the order of the pieces from `start` to `end`, where a piece ends with a halant: what
// stands before a halant that is still seen is drawn apart, and a vowel stands before its own
// consonants.
#[inline]
fn list_pieces(buffer: &mut Buffer, start: usize, end: usize) {
    let mut front = start;
    while front < end {
        let behind = front + piece_len(&buffer.glyphs()[front..end]);
        list_piece(buffer, front, front, behind);
        front = behind;
    }
}

// Lists the order of the piece from `start` to `end`: what goes to the front, last first; the reph
// and what it passes, which end at `behind`, with the reph last; and the rest.
#[inline]
fn list_piece(buffer: &mut Buffer, start: usize, behind: usize, end: usize) {
    let at = list_fronts(buffer, start, behind, end);
    let at = list_reph(buffer, start, behind, at);
    list_rest(buffer, behind, end, at);
}

// Lists what goes to the front of those from `behind` to `end`, last first, from place `start` on.
// Returns the place behind them.
#[inline]
fn list_fronts(buffer: &mut Buffer, start: usize, behind: usize, end: usize) -> usize {
    let mut at = start;
    for i in (behind..end).rev() {
        if goes_front(&buffer.glyphs()[i]) {
            buffer.set_place(at, i);
            at += 1;
        }
    }
    at
}

// Lists the places from `start` to `behind` from place `at` on, the first of them last. Returns the
// place behind them.
#[inline]
fn list_reph(buffer: &mut Buffer, start: usize, behind: usize, at: usize) -> usize {
    if start == behind {
        return at;
    }
    let mut at = at;
    for i in start + 1..behind {
        buffer.set_place(at, i);
        at += 1;
    }
    buffer.set_place(at, start);
    at + 1
}

// Lists what doesn't go to the front of those from `start` to `end`, from place `at` on.
#[inline]
fn list_rest(buffer: &mut Buffer, start: usize, end: usize, at: usize) {
    let mut at = at;
    for i in start..end {
        if !goes_front(&buffer.glyphs()[i]) {
            buffer.set_place(at, i);
            at += 1;
        }
    }
}

// Whether syllables of this kind are reordered.
#[inline]
fn is_reordered(syllable: &[GlyphInfo]) -> bool {
    match syllable.first() {
        None => false,
        Some(glyph) => {
            let kind = glyph.syllable % 16;
            kind == VIRAMA_TERMINATED_CLUSTER
                || kind == SAKOT_TERMINATED_CLUSTER
                || kind == STANDARD_CLUSTER
                || kind == BROKEN_CLUSTER
        }
    }
}

// How many glyphs the reph in front and what it passes are, 0 where no reph stands in front.
#[inline]
fn leading_reph_len(syllable: &[GlyphInfo]) -> usize {
    match syllable.split_first() {
        Some((first, others)) if first.category == category::R => 1 + passed_len(others),
        _ => 0,
    }
}

// How many glyphs in front a reph passes.
#[inline]
fn passed_len(glyphs: &[GlyphInfo]) -> usize {
    glyphs.iter().take_while(|glyph| is_passed(glyph)).count()
}

// Whether a reph passes this glyph: it is no halant and doesn't stand after the base. A halant that
// is left belongs to a consonant that the font draws in full, and the reph is drawn over that one.
#[inline]
fn is_passed(glyph: &GlyphInfo) -> bool {
    !(is_post_base(glyph.category) || is_halant(glyph))
}

// Whether glyphs of this category stand after the base.
#[inline]
fn is_post_base(category: u8) -> bool {
    matches!(
        category,
        category::FAbv
            | category::FBlw
            | category::FPst
            | category::FMAbv
            | category::FMBlw
            | category::FMPst
            | category::MAbv
            | category::MBlw
            | category::MPst
            | category::MPre
            | category::VAbv
            | category::VBlw
            | category::VPst
            | category::VPre
            | category::VMAbv
            | category::VMBlw
            | category::VMPst
            | category::VMPre
    )
}

// Whether a glyph is a halant, and no ligature: one that the font ligated with its consonant
// separates nothing.
#[inline]
fn is_halant(glyph: &GlyphInfo) -> bool {
    let category = glyph.category;
    (category == category::H || category == category::HVM || category == category::IS)
        && !glyph.glyph_props.is_ligated()
}

// How long the first piece is: up to the first halant, or all.
#[inline]
fn piece_len(glyphs: &[GlyphInfo]) -> usize {
    for (i, glyph) in glyphs.iter().enumerate() {
        if is_halant(glyph) {
            return i + 1;
        }
    }
    glyphs.len()
}

// Whether a glyph goes to the front of its piece. Of what a lookup put in for one glyph only the
// first does: the other parts of a split vowel stand above, below or behind.
#[inline]
fn goes_front(glyph: &GlyphInfo) -> bool {
    (glyph.category == category::VPre || glyph.category == category::VMPre)
        && glyph.lig_props.component() == 0
}
