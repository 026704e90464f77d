// Generated from crates/shapers_indic_initial/src/ot_shaper_indic_initial/halant.rt by rust/erase; edit the source.

//! The H that the older specification puts behind the last consonant, and the joiner that Kannada
//! puts before it. (OpenType, development of Indic scripts.)

use super::places::is_of_category;
use crate::generated::shapers_base::buffer::{GlyphInfo, Script};
use crate::generated::shapers_base::plan::ot_category_t::{OT_H, OT_Ra, OT_ZWJ};
use crate::generated::shapers_syllabic::ot_shaper_syllabic::is_consonant;

const KANNADA: Option<Script> = Some(Script(*b"Knda"));

/// The place of the first H after the base and that of the glyph behind which it goes: the last
/// consonant after it, in Kannada not over another H. `None` if it stays.
///
/// Fonts of the older specification have their lookups for a consonant with its H behind it, where
/// text has H first. Uniscribe moves H also where the syllable ends in another one, in Malayalam
/// (0D38 0D4D 0D31 0D4D 0D31 0D4D), Bengali (0998 09CD 09AF 09CD) and Devanagari
/// (091F 094D 0930 094D); in Kannada (0C9A 0CCD 0C9A 0CCD) it then leaves it. (HarfBuzz's issues 1071
/// and 1073.)
#[inline]
pub(super) fn halant_move(
    script: Option<Script>,
    glyphs: &[GlyphInfo],
    base: usize,
) -> Option<(usize, usize)> {
    let halant = halant_after(glyphs, base)?;
    let last = last_after_halant(script, glyphs, halant)?;
    if glyphs[last].category == OT_H {
        return None;
    }
    Some((halant, last))
}

// The place of the first H after the base.
#[inline]
fn halant_after(glyphs: &[GlyphInfo], base: usize) -> Option<usize> {
    if base >= glyphs.len() {
        return None;
    }
    (base + 1..glyphs.len()).find(|&place| is_of_category(glyphs, place, OT_H))
}

// The place of the last glyph after an H at this place over which the H goes.
#[allow(clippy::manual_find)]
#[inline]
fn last_after_halant(script: Option<Script>, glyphs: &[GlyphInfo], halant: usize) -> Option<usize> {
    for place in (halant + 1..glyphs.len()).rev() {
        if is_passed_by_halant(script, &glyphs[place]) {
            return Some(place);
        }
    }
    None
}

// Whether an H goes over a glyph, or stays before it.
#[inline]
fn is_passed_by_halant(script: Option<Script>, glyph: &GlyphInfo) -> bool {
    is_consonant(glyph) || (glyph.category == OT_H && script == KANNADA)
}

/// Whether Kannada's opening Ra, H, ZWJ stands for Ra, ZWJ, H.
///
/// Either requests a whole Ra with what follows below it (0CB0 200D 0CCD 0C95); older texts have the
/// ZWJ last (0CB0 0CCD 200D 0C95), where in other scripts it requests a half form. (HarfBuzz's issue
/// 435.)
#[inline]
pub(super) fn joiner_comes_first(script: Option<Script>, glyphs: &[GlyphInfo]) -> bool {
    script == KANNADA && begins_with_ra_h_zwj(glyphs)
}

// Whether a syllable begins with Ra, H, ZWJ.
#[inline]
fn begins_with_ra_h_zwj(glyphs: &[GlyphInfo]) -> bool {
    match glyphs {
        [ra, halant, joiner, ..] => {
            is_plain(ra, OT_Ra) && is_plain(halant, OT_H) && is_plain(joiner, OT_ZWJ)
        }
        _ => false,
    }
}

// Whether a glyph is of this category, and no lookup put it in for several.
#[inline]
fn is_plain(glyph: &GlyphInfo, category: u8) -> bool {
    glyph.category == category && !glyph.glyph_props.is_ligated()
}
