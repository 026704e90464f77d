// Generated from crates/shapers_syllabic/src/ot_shaper_syllabic/consonants.rt by rust/erase; edit the source.

//! The consonants of Indic and Myanmar.

use crate::generated::shapers_base::buffer::GlyphInfo;
use crate::generated::shapers_base::plan::ot_category_t::{
    OT_C, OT_CM, OT_CS, OT_DOTTEDCIRCLE, OT_PLACEHOLDER, OT_Ra, OT_V,
};

/// Whether a glyph is a consonant: of a category that may carry a syllable, and not put in by a
/// lookup for several. (OpenType.)
///
/// <details><summary>Contract</summary>
///
/// # Contract
///
/// ```text
/// ensures { result ≡ is_consonant glyph.now }
/// ```
///
/// - `is_consonant`: `crates/shapers_syllabic/specs/Consonants.antt`
///
/// </details>
#[inline]
pub fn is_consonant(glyph: &GlyphInfo) -> bool {
    !glyph.glyph_props.is_ligated()
        && matches!(
            glyph.category,
            OT_C | OT_CS | OT_Ra | OT_CM | OT_V | OT_PLACEHOLDER | OT_DOTTEDCIRCLE
        )
}
