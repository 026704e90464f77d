// Generated from crates/shapers_indic_final/src/ot_shaper_indic_final/base.rt by rust/erase; edit the source.

//! The base of a syllable after substitutions. (OpenType, development of Indic scripts: "Final
//! reordering".)

use super::glyphs::{is_formed, is_halant};
use super::pref::pref_place;
use super::rules::{Rules, is_malayalam};
use crate::generated::shapers_base::buffer::{Buffer, GlyphInfo, Script};
use crate::generated::shapers_base::plan::ot_category_t::{OT_H, OT_N, OT_ZWJ};
use crate::generated::shapers_base::plan::ot_position_t::{POS_BASE_C, POS_BELOW_C};
use crate::generated::shapers_indic::ot_shaper_indic::glyphs::is_joiner;
use crate::generated::shapers_syllabic::ot_shaper_syllabic::is_consonant;

/// Where the base of a syllable stands, or the syllable's length, and whether a formed `pref` glyph
/// may go before it.
#[derive(Clone, Copy)]
pub(super) struct Based {
    pub(super) base: usize,
    pub(super) tries_pref: bool,
}

// Finds the base of the syllable from `start` to `end`, and gives the glyphs that become it the
// base's position.
#[inline]
pub(super) fn search_base(
    rules: &Rules,
    script: Option<Script>,
    buffer: &mut Buffer,
    start: usize,
    end: usize,
) -> Based {
    buffer.with_glyphs_mut(|glyphs| find_base(rules, script, &mut glyphs[start..end]))
}

// Finds the base of a syllable, and gives the glyphs that become it the base's position.
#[inline]
fn find_base(rules: &Rules, script: Option<Script>, glyphs: &mut [GlyphInfo]) -> Based {
    let first = first_base(glyphs);
    let by_pref = set_pref_base(rules.pref, first, glyphs);
    let by_links = set_links(script, by_pref.unwrap_or(first), glyphs);
    Based {
        base: before_halants(
            before_joiner(stepped_back(by_links, glyphs), glyphs),
            glyphs,
        ),
        tries_pref: rules.pref != 0 && by_pref.is_none(),
    }
}

// The first glyph whose position is the base's or one after it, else the end.
#[inline]
fn first_base(glyphs: &[GlyphInfo]) -> usize {
    first_from_base_on(glyphs).unwrap_or(glyphs.len())
}

// That glyph, if there is one.
#[inline]
fn first_from_base_on(glyphs: &[GlyphInfo]) -> Option<usize> {
    (0..glyphs.len()).find(|&place| is_from_base_on(glyphs, place))
}

// Whether the glyph at a place has the base's position or one after it.
#[inline]
fn is_from_base_on(glyphs: &[GlyphInfo], place: usize) -> bool {
    glyphs
        .get(place)
        .is_some_and(|glyph| glyph.auxiliary >= POS_BASE_C)
}

// The first glyph after the base with the mask of `pref`, if it is not substituted and formed.
#[inline]
fn unformed_pref(pref: u32, base: usize, glyphs: &[GlyphInfo]) -> Option<usize> {
    let i = pref_place(pref, base, glyphs)?;
    if glyphs[i].glyph_props.is_substituted() && is_formed(&glyphs[i]) {
        None
    } else {
        Some(i)
    }
}

// The base by `pref`, which gets the base's position, if there is an unformed glyph. The initial
// reordering took that letter for one that is drawn before the base. Of a font without such a form
// it is a letter like others, and what comes behind its halants is the base.
#[inline]
fn set_pref_base(pref: u32, base: usize, glyphs: &mut [GlyphInfo]) -> Option<usize> {
    let i = unformed_pref(pref, base, glyphs)?;
    let by_pref = behind_halants(glyphs, i);
    set_base_at(by_pref, glyphs);
    Some(by_pref)
}

// The first glyph from a place on that is no halant, else the end.
#[inline]
fn behind_halants(glyphs: &[GlyphInfo], start: usize) -> usize {
    start + halants_len(&glyphs[start..])
}

// How many halants stand in front.
#[inline]
fn halants_len(glyphs: &[GlyphInfo]) -> usize {
    glyphs.iter().take_while(|glyph| is_halant(glyph)).count()
}

// Gives the glyph of a place, if there is one, the base's position.
#[inline]
fn set_base_at(index: usize, glyphs: &mut [GlyphInfo]) {
    if index < glyphs.len() {
        glyphs[index].auxiliary = POS_BASE_C;
    }
}

// What stands before the base, where the base's position is one after the base's: the base itself
// is part of a ligature, or lost its position, and this glyph is drawn behind it.
#[inline]
fn stepped_back(base: usize, glyphs: &[GlyphInfo]) -> usize {
    if base < glyphs.len() && glyphs[base].auxiliary > POS_BASE_C {
        base.saturating_sub(1)
    } else {
        base
    }
}

// From the end back over a ZWJ there: a syllable whose consonants are all half forms, so that none
// has the base's position, ends with the joiner that wanted the last of them.
#[inline]
fn before_joiner(base: usize, glyphs: &[GlyphInfo]) -> usize {
    match glyphs {
        [.., last]
            if base == glyphs.len()
                && !last.glyph_props.is_ligated()
                && last.category == OT_ZWJ =>
        {
            base - 1
        }
        _ => base,
    }
}

// Back to the nearest glyph that is neither a nukta nor a halant, else to the start.
#[inline]
fn before_halants(base: usize, glyphs: &[GlyphInfo]) -> usize {
    if base == glyphs.len() {
        base
    } else {
        nearest_base_like(base, glyphs)
    }
}

// The nearest glyph from the base leftwards that is neither a nukta nor a halant, else the start.
#[inline]
fn nearest_base_like(base: usize, glyphs: &[GlyphInfo]) -> usize {
    for i in (1..base + 1).rev() {
        if is_base_like(&glyphs[i]) {
            return i;
        }
    }
    0
}

// Whether a glyph is neither a nukta nor a halant.
#[inline]
fn is_base_like(glyph: &GlyphInfo) -> bool {
    glyph.glyph_props.is_ligated() || !matches!(glyph.category, OT_N | OT_H)
}

// The base by links, in Malayalam; the last glyphs of links that become it get the base's position.
// A consonant behind a halant for which the font has no below-base form is drawn in full, and left
// matras go before the last such consonant. One with a post-base form is drawn behind its base, and
// never is the base, formed or not.
#[inline]
fn set_links(script: Option<Script>, base: usize, glyphs: &mut [GlyphInfo]) -> usize {
    if is_malayalam(script) {
        set_along_links(base, glyphs)
    } else {
        base
    }
}

// The base by links, whose last glyphs get the base's position.
fn set_along_links(base: usize, glyphs: &mut [GlyphInfo]) -> usize {
    let mut last = base;
    let mut halant = false;
    for i in base + 1..glyphs.len() {
        if is_joiner(&glyphs[i]) {
            continue;
        }
        if halant {
            last = set_link(glyphs, i, last);
            halant = false;
            continue;
        }
        if !is_halant(&glyphs[i]) {
            return last;
        }
        halant = true;
    }
    last
}

// Gives the last glyph of a link, at `index`, the base's position, if its below-base form was not
// made. Returns the base then, which was `last` before.
#[inline]
fn set_link(glyphs: &mut [GlyphInfo], index: usize, last: usize) -> usize {
    if is_unformed_below(&glyphs[index]) {
        glyphs[index].auxiliary = POS_BASE_C;
        index
    } else {
        last
    }
}

// Whether a glyph is a consonant whose below-base form was not made.
#[inline]
fn is_unformed_below(glyph: &GlyphInfo) -> bool {
    is_consonant(glyph) && glyph.auxiliary == POS_BELOW_C
}
