// Generated from crates/shapers_indic_initial/src/ot_shaper_indic_initial/ordered_base.rt by rust/erase; edit the source.

//! Where the base of a syllable stands once its glyphs are in order.

use crate::generated::shapers_base::buffer::GlyphInfo;
use crate::generated::shapers_base::plan::ot_position_t::POS_BASE_C;

/// The place of the first glyph of position `BASE_C` in an ordered syllable, or its length.
#[inline]
pub(super) fn ordered_base(glyphs: &[GlyphInfo]) -> usize {
    first_base(glyphs).unwrap_or(glyphs.len())
}

// The place of the first glyph of position BASE_C.
#[inline]
fn first_base(glyphs: &[GlyphInfo]) -> Option<usize> {
    glyphs
        .iter()
        .position(|glyph| glyph.auxiliary == POS_BASE_C)
}
