// Generated from crates/shapers_indic_initial/src/ot_shaper_indic_initial/places.rt by rust/erase; edit the source.

//! What stands at a place of a syllable, which may have no such place.

use crate::generated::shapers_base::buffer::GlyphInfo;
use crate::generated::shapers_base::plan::Category;

/// Whether there is a glyph of this category at this place.
#[inline]
pub(super) fn is_of_category(glyphs: &[GlyphInfo], place: usize, category: Category) -> bool {
    match glyphs.get(place) {
        Some(glyph) => glyph.category == category,
        None => false,
    }
}
