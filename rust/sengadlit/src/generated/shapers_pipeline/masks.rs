// Generated from crates/shapers_pipeline/src/masks.rt by rust/erase; edit the source.

//! The masks that the plan gives a text, besides those of its shaper.

use crate::generated::shapers_base::buffer::{Buffer, GlyphInfo, GlyphProps};
use crate::generated::shapers_plan::ot_shape_plan::UserRange;

// Gives each glyph the features that hold for the whole text, and no others.
pub(crate) fn initialize_masks(mask: u32, buffer: &mut Buffer) {
    buffer.change_all_by(|glyph| glyph.mask = mask);
}

// Sets the caller's features in their ranges, the later ones over the earlier.
pub(crate) fn set_features(features: &[UserRange], buffer: &mut Buffer) {
    if features.is_empty() {
        return;
    }
    buffer.change_all_by(|glyph| set_features_of(features, glyph));
}

// Sets the features in whose ranges the glyph is.
#[inline]
fn set_features_of(features: &[UserRange], glyph: &mut GlyphInfo) {
    for feature in features {
        set_feature(*feature, glyph);
    }
}

// Sets a feature where the glyph is in its range.
#[inline]
fn set_feature(feature: UserRange, glyph: &mut GlyphInfo) {
    if feature.start <= glyph.cluster && glyph.cluster < feature.end {
        glyph.mask = (glyph.mask & !feature.mask) | (feature.value & feature.mask);
    }
}

// Each character becomes the glyph that normalization kept beside it.
pub(crate) fn map_glyphs(buffer: &mut Buffer) {
    buffer.change_all_by(|glyph| {
        glyph.glyph_id = u32::from(glyph.glyph_props.0);
        glyph.glyph_props = GlyphProps::NONE;
    });
}
