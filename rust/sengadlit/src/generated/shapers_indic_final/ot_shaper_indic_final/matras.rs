// Generated from crates/shapers_indic_final/src/ot_shaper_indic_final/matras.rt by rust/erase; edit the source.

//! Where the left matras of a syllable go. (OpenType, development of Indic scripts: "Reorder
//! matras".)

use super::glyphs::{is_halant, is_matra_or_halant};
use super::rules::has_no_half_forms;
use crate::generated::shapers_base::buffer::{GlyphInfo, Script};
use crate::generated::shapers_base::plan::ot_category_t::OT_ZWJ;
use crate::generated::shapers_base::plan::ot_position_t::POS_PRE_M;

// Whether a glyph is a left matra.
#[inline]
pub(super) fn is_left(glyph: &GlyphInfo) -> bool {
    glyph.auxiliary == POS_PRE_M
}

// Whether left matras go to a place: one past the start, where none stands.
#[inline]
pub(super) fn takes_matras(target: usize, glyphs: &[GlyphInfo]) -> bool {
    target > 0 && !is_left(&glyphs[target])
}

// The end of what merges with a left matra: the base with it, if there is one.
#[inline]
pub(super) fn end_of_base(base: usize, glyphs: &[GlyphInfo]) -> usize {
    if base < glyphs.len() {
        base + 1
    } else {
        glyphs.len()
    }
}

// The first left matra before the base.
#[inline]
pub(super) fn first_left(base: usize, glyphs: &[GlyphInfo]) -> Option<usize> {
    (0..base).find(|&place| is_left_at(glyphs, place))
}

// Whether a left matra stands at a place.
#[inline]
fn is_left_at(glyphs: &[GlyphInfo], place: usize) -> bool {
    glyphs.get(place).is_some_and(is_left)
}

// The place that left matras go to, the start if they stay. They were put in front of all half
// forms, and are drawn behind those that the font left as letters with a halant. Malayalam and
// Tamil have none: what `half` forms there are chillus and ligatures with a virama, and a left
// matra goes behind them, directly before the base. Of a syllable whose base is lost the last glyph
// counts as one.
#[inline]
pub(super) fn matra_target(script: Option<Script>, base: usize, glyphs: &[GlyphInfo]) -> usize {
    let before = if base == glyphs.len() {
        base - 2
    } else {
        base - 1
    };
    if has_no_half_forms(script) {
        before
    } else {
        nearest_halant(before, glyphs)
    }
}

// The halant that left matras go behind: the nearest from a place leftwards, if nothing ends the
// search before it; else the start. A halant with the position of a left matra came to the front
// with one, and says nothing of the consonants.
#[inline]
fn nearest_halant(from: usize, glyphs: &[GlyphInfo]) -> usize {
    let end = search_end(from, glyphs);
    if is_free_halant(&glyphs[end]) { end } else { 0 }
}

// Where the search for a halant ends, else the start.
#[inline]
fn search_end(from: usize, glyphs: &[GlyphInfo]) -> usize {
    for i in (0..from + 1).rev() {
        if ends_search(glyphs, i) {
            return i;
        }
    }
    0
}

// Whether the glyph at `index` ends the search for a halant. One before a ZWJ doesn't: the
// specification has left matras go behind a joiner, but Uniscribe leaves them where they are, so
// that 091F 094D 200D 092F 093F begins with the vowel sign. In 091F 094D 200C 092F 093F it stands
// in the middle; no ZWNJ need be looked for, since behind a halant it ends the syllable. (Fonts that
// show it are Adobe Devanagari and Nirmala UI: HarfBuzz's issue 1070.)
#[inline]
fn ends_search(glyphs: &[GlyphInfo], index: usize) -> bool {
    is_matra_or_halant(&glyphs[index])
        && !(is_free_halant(&glyphs[index]) && glyphs[index + 1].category == OT_ZWJ)
}

// Whether a glyph is a halant that belongs to no left matra.
#[inline]
fn is_free_halant(glyph: &GlyphInfo) -> bool {
    is_halant(glyph) && !is_left(glyph)
}
