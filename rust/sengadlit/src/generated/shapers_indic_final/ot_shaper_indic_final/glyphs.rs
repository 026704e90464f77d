// Generated from crates/shapers_indic_final/src/ot_shaper_indic_final/glyphs.rt by rust/erase; edit the source.

//! What the final reordering reads of a glyph.

use crate::generated::shapers_base::buffer::GlyphInfo;
use crate::generated::shapers_base::plan::ot_category_t::{OT_H, OT_M, OT_MPst};

// Whether a glyph is a halant.
#[inline]
pub(super) fn is_halant(glyph: &GlyphInfo) -> bool {
    !glyph.glyph_props.is_ligated() && glyph.category == OT_H
}

// Whether a halant stands at a place.
#[inline]
pub(super) fn is_halant_at(glyphs: &[GlyphInfo], place: usize) -> bool {
    glyphs.get(place).is_some_and(is_halant)
}

// Whether a glyph is a vowel sign or a halant, and no lookup put it in for several.
#[inline]
pub(super) fn is_matra_or_halant(glyph: &GlyphInfo) -> bool {
    !glyph.glyph_props.is_ligated() && matches!(glyph.category, OT_M | OT_MPst | OT_H)
}

// Whether lookups formed one glyph of several, and did not take it apart again.
#[inline]
pub(super) fn is_formed(glyph: &GlyphInfo) -> bool {
    glyph.glyph_props.is_ligated() && !glyph.glyph_props.is_multiplied()
}

// Whether a glyph has some bit of a mask.
#[inline]
pub(super) fn has_mask(bits: u32, glyph: &GlyphInfo) -> bool {
    glyph.mask & bits != 0
}
