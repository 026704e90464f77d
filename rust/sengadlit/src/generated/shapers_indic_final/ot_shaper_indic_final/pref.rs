// Generated from crates/shapers_indic_final/src/ot_shaper_indic_final/pref.rt by rust/erase; edit the source.

//! Where a glyph formed by `pref` goes. (OpenType, development of Indic scripts: "Reorder
//! pre-base-reordering consonants".) A font may have the feature for a letter and form nothing of
//! it in some contexts, so that only what was formed moves; by which feature it was isn't looked
//! at.

use super::glyphs::{has_mask, is_formed, is_halant, is_matra_or_halant};
use super::rules::has_no_half_forms;
use crate::generated::shapers_base::buffer::{GlyphInfo, Script};
use crate::generated::shapers_indic::ot_shaper_indic::glyphs::is_joiner;

// The first glyph after the base with the mask of `pref`, which some plans don't give.
#[inline]
pub(super) fn pref_place(pref: u32, base: usize, glyphs: &[GlyphInfo]) -> Option<usize> {
    if pref == 0 {
        return None;
    }
    (base + 1..glyphs.len()).find(|&place| has_mask_at(pref, glyphs, place))
}

// Whether a glyph with some bit of a mask stands at a place.
#[inline]
fn has_mask_at(bits: u32, glyphs: &[GlyphInfo], place: usize) -> bool {
    glyphs.get(place).is_some_and(|glyph| has_mask(bits, glyph))
}

// That glyph, if it is formed.
#[inline]
pub(super) fn formed_pref(pref: u32, base: usize, glyphs: &[GlyphInfo]) -> Option<usize> {
    let i = pref_place(pref, base, glyphs)?;
    if is_formed(&glyphs[i]) { Some(i) } else { None }
}

// Where a formed glyph goes: behind the nearest vowel sign or halant before the base, as left
// matras do; without half forms to the base itself, whatever chillus stand before it. A joiner there
// stays with its halant.
#[inline]
pub(super) fn pref_target(script: Option<Script>, base: usize, glyphs: &[GlyphInfo]) -> usize {
    let place = if has_no_half_forms(script) {
        base
    } else {
        behind_sign(base, glyphs)
    };
    if is_joiner_behind_halant(glyphs, place) {
        place + 1
    } else {
        place
    }
}

// The place behind the nearest vowel sign or halant before the base, else the start.
#[inline]
fn behind_sign(base: usize, glyphs: &[GlyphInfo]) -> usize {
    for i in (0..base).rev() {
        if is_matra_or_halant(&glyphs[i]) {
            return i + 1;
        }
    }
    0
}

// Whether a joiner stands at a place, and a halant before it.
#[inline]
fn is_joiner_behind_halant(glyphs: &[GlyphInfo], index: usize) -> bool {
    index > 0 && is_halant(&glyphs[index - 1]) && is_joiner(&glyphs[index])
}
