// Generated from crates/shapers_indic_initial/src/ot_shaper_indic_initial/base.rt by rust/erase; edit the source.

//! The base consonant of a syllable, and whether it has a reph. (OpenType, development of Indic
//! scripts: "Find base consonant".)

use super::places::is_of_category;
use super::reph::{limit, reph_len};
use super::rules::Rules;
use crate::generated::shapers_base::buffer::GlyphInfo;
use crate::generated::shapers_base::font::Font;
use crate::generated::shapers_base::plan::BaseSearch;
use crate::generated::shapers_base::plan::ot_category_t::{
    OT_C, OT_CM, OT_CS, OT_DOTTEDCIRCLE, OT_H, OT_PLACEHOLDER, OT_Ra, OT_V, OT_ZWJ,
};
use crate::generated::shapers_base::plan::ot_position_t::{POS_BELOW_C, POS_POST_C};

/// Where the base of a syllable stands, the syllable's length if it has none, and whether there is
/// a reph.
#[derive(Clone, Copy)]
pub(super) struct Base {
    pub(super) place: usize,
    pub(super) has_reph: bool,
}

impl Base {
    /// None yet.
    pub(super) const NONE: Base = Base {
        place: 0,
        has_reph: false,
    };
}

/// Finds the base of a syllable and its reph.
///
/// Ra, H with no other consonant forms no reph (0930 094D): Ra is the base then. With a ZWJ it does
/// (0C30 0C4D 200D), since that requests one.
#[inline]
pub(super) fn find_base<F: Font>(rules: &Rules<F>, glyphs: &[GlyphInfo]) -> Base {
    let reph = reph_len(rules, glyphs);
    let limit = limit(glyphs, reph);
    let otherwise = if reph == 0 { glyphs.len() } else { 0 };
    let lo = limit.min(glyphs.len().saturating_sub(1));
    let place = last_or_first(rules.plan.base_search, glyphs, lo).unwrap_or(otherwise);
    Base {
        place,
        has_reph: reph != 0 && !(place == 0 && limit <= 2),
    }
}

// The base from place `lo` on, or behind what stops the search: the last consonant without a
// below-base or post-base form, else the first consonant.
#[inline]
fn last_or_first(search: BaseSearch, glyphs: &[GlyphInfo], lo: usize) -> Option<usize> {
    if let Some(base) = last_base(search, glyphs, lo) {
        return Some(base);
    }
    first_candidate(search, glyphs, search_from(glyphs, lo))
}

// The last consonant without a below-base or post-base form from place `lo` on, or behind what
// stops the search.
#[inline]
fn last_base(search: BaseSearch, glyphs: &[GlyphInfo], lo: usize) -> Option<usize> {
    let mut below = false;
    for place in (lo..glyphs.len()).rev() {
        if stops_search(glyphs, place) {
            return None;
        }
        if is_base(search, &glyphs[place], below) {
            return Some(place);
        }
        below = is_below(search, &glyphs[place]) || below;
    }
    None
}

// Whether the search may end with a glyph: a consonant that has no below-base form, nor a post-base
// one unless a consonant with a below-base form follows, since post-base forms stand behind those.
#[inline]
fn is_base(search: BaseSearch, glyph: &GlyphInfo, below: bool) -> bool {
    is_base_candidate(search, glyph)
        && glyph.auxiliary != POS_BELOW_C
        && (glyph.auxiliary != POS_POST_C || below)
}

// Whether a glyph is a consonant with a below-base form.
#[inline]
fn is_below(search: BaseSearch, glyph: &GlyphInfo) -> bool {
    is_base_candidate(search, glyph) && glyph.auxiliary == POS_BELOW_C
}

// Where the search ends: behind the last glyph that stops it, or at place `lo`.
#[inline]
fn search_from(glyphs: &[GlyphInfo], lo: usize) -> usize {
    for place in (lo..glyphs.len()).rev() {
        if stops_search(glyphs, place) {
            return place + 1;
        }
    }
    lo
}

// The first consonant that may be the base from place `start` on.
#[inline]
fn first_candidate(search: BaseSearch, glyphs: &[GlyphInfo], start: usize) -> Option<usize> {
    (start..glyphs.len()).find(|&place| may_be_base(search, glyphs, place))
}

// Whether the glyph at this place stops the search: a ZWJ behind an H requests the half form of what
// stands before (0915 094D 200D 0937). One before an H requests the form below the base of what
// follows (09B0 200D 09CD 09AF), and the search goes on.
#[inline]
fn stops_search(glyphs: &[GlyphInfo], place: usize) -> bool {
    is_of_category(glyphs, place, OT_ZWJ) && place > 0 && is_of_category(glyphs, place - 1, OT_H)
}

// Whether there is a consonant at this place that may be the base.
#[inline]
fn may_be_base(search: BaseSearch, glyphs: &[GlyphInfo], place: usize) -> bool {
    match glyphs.get(place) {
        Some(glyph) => is_base_candidate(search, glyph),
        None => false,
    }
}

// Whether a glyph is a consonant that may be the base.
#[inline]
fn is_base_candidate(search: BaseSearch, glyph: &GlyphInfo) -> bool {
    !glyph.glyph_props.is_ligated()
        && match glyph.category {
            OT_C | OT_CS | OT_Ra | OT_V | OT_PLACEHOLDER | OT_DOTTEDCIRCLE => true,
            OT_CM => search == BaseSearch::AllConsonants,
            _ => false,
        }
}
