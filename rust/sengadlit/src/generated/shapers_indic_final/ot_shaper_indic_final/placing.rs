// Generated from crates/shapers_indic_final/src/ot_shaper_indic_final/placing.rt by rust/erase; edit the source.

//! Left matras, the reph and a formed pref glyph of one syllable, each given its place: as three
//! placements, one after another, since where one goes depends on where those before it went.

use super::glyphs::has_mask;
use super::left_matras::gather_matras;
use super::matras::{end_of_base, first_left, matra_target, takes_matras};
use super::moves::{move_pref, move_reph};
use super::pref::{formed_pref, pref_target};
use super::reph::{base_after_reph, begins_with_reph, is_moving_reph, reph_target};
use crate::generated::shapers_base::buffer::{
    Arranged, Buffer, GlyphInfo, Placements, Script, SyllableReading,
};
use crate::generated::shapers_base::plan::RephPosition;

// Gives the reph of the syllable from `start` to `end`, moved so far, its place, and returns where
// the base is then.
#[inline]
pub(super) fn place_reph(
    position: RephPosition,
    base: usize,
    moves: &mut Placements,
    buffer: &mut Buffer,
    start: usize,
    end: usize,
) -> usize {
    if !begins_moved(moves, buffer, start, end) {
        return base;
    }
    let mut search = RephSearch {
        position,
        base,
        target: None,
    };
    buffer.read_arranged(moves, start, end, &mut search);
    match search.target {
        None => base,
        Some(target) => {
            *moves = move_reph(*moves, buffer, start, end, target);
            base_after_reph(base, target)
        }
    }
}

// Whether a reph that moves begins the syllable from `start` to `end`, moved so far.
#[inline]
fn begins_moved(moves: &Placements, buffer: &Buffer, start: usize, end: usize) -> bool {
    if moves.moves_nothing() {
        return begins_with_reph(&buffer.glyphs()[start..end]);
    }
    begins_arranged(&buffer.arranged(moves, start, end), start, end)
}

// Whether a reph that moves begins the syllable from `start` to `end` of a text that is seen as
// moved.
#[inline]
fn begins_arranged(glyphs: &Arranged, start: usize, end: usize) -> bool {
    end - start >= 2 && is_moving_reph(&glyphs.get(start))
}

// A look for where the reph goes.
struct RephSearch {
    position: RephPosition,
    base: usize,
    target: Option<usize>,
}

impl SyllableReading for RephSearch {
    #[inline]
    fn read(&mut self, syllable: &[GlyphInfo]) {
        self.target = reph_goes(self.position, self.base, syllable);
    }
}

// Where the reph of a syllable goes, if one moves.
#[inline]
fn reph_goes(position: RephPosition, base: usize, glyphs: &[GlyphInfo]) -> Option<usize> {
    if begins_with_reph(glyphs) {
        Some(reph_target(position, base, glyphs))
    } else {
        None
    }
}

// Gives the glyph of the syllable from `start` to `end`, moved so far, that `pref` formed its
// place, if one is tried.
#[inline]
pub(super) fn place_pref(
    tries: bool,
    script: Option<Script>,
    pref: u32,
    base: usize,
    moves: &mut Placements,
    buffer: &mut Buffer,
    start: usize,
    end: usize,
) {
    if !tries {
        return;
    }
    let mut search = PrefSearch {
        script,
        pref,
        base,
        places: None,
    };
    buffer.read_arranged(moves, start, end, &mut search);
    if let Some((target, i)) = search.places {
        *moves = move_pref(*moves, buffer, start, end, target, i);
    }
}

// A look for a glyph that `pref` formed, and where it goes.
struct PrefSearch {
    script: Option<Script>,
    pref: u32,
    base: usize,
    places: Option<(usize, usize)>,
}

impl SyllableReading for PrefSearch {
    #[inline]
    fn read(&mut self, syllable: &[GlyphInfo]) {
        self.places = pref_goes(self.pref, self.script, self.base, syllable);
    }
}

// Where a glyph that `pref` formed goes, and its place.
#[inline]
fn pref_goes(
    pref: u32,
    script: Option<Script>,
    base: usize,
    glyphs: &[GlyphInfo],
) -> Option<(usize, usize)> {
    let i = formed_pref(pref, base, glyphs)?;
    Some((pref_target(script, base, glyphs), i))
}

// Gives the left matras of the syllable from `start` to `end` their place: written at once, if one
// moves alone, and behind it nothing but a reph may, since no glyph has a bit of `forming`.
#[inline]
pub(super) fn place_matras(
    script: Option<Script>,
    base: usize,
    forming: u32,
    buffer: &mut Buffer,
    start: usize,
    end: usize,
) -> Placements {
    if base == 0 || end - start < 2 {
        return Placements::STAY;
    }
    let base_end = end_of_base(base, &buffer.glyphs()[start..end]);
    let target = matra_target(script, base, &buffer.glyphs()[start..end]);
    if takes_matras(target, &buffer.glyphs()[start..end]) {
        let others = has_any(forming, &buffer.glyphs()[start..end]);
        gather_matras(target, base_end, others, buffer, start, end)
    } else {
        merge_matras(base, base_end, buffer, start, end);
        Placements::STAY
    }
}

// Whether some glyph has a bit of a mask.
#[inline]
fn has_any(bits: u32, glyphs: &[GlyphInfo]) -> bool {
    glyphs.iter().any(|glyph| has_mask(bits, glyph))
}

// Merges the syllable from `start` to `end` from its first left matra before the base up to place
// `base_end`.
#[inline]
fn merge_matras(base: usize, base_end: usize, buffer: &mut Buffer, start: usize, end: usize) {
    let first = first_left(base, &buffer.glyphs()[start..end]);
    if let Some(i) = first {
        buffer.merge_clusters(start + i, start + base_end);
    }
}
