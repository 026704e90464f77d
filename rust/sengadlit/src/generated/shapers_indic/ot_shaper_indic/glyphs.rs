// Generated from crates/shapers_indic/src/ot_shaper_indic/glyphs.rt by rust/erase; edit the source.

//! What both reorderings read of a glyph.

use crate::generated::shapers_base::buffer::GlyphInfo;
use crate::generated::shapers_base::font::GlyphId;
use crate::generated::shapers_base::plan::ot_category_t::{OT_C, OT_M, OT_MPst, OT_ZWJ, OT_ZWNJ};
use crate::generated::shapers_base::plan::ot_position_t::POS_BASE_C;

/// The glyph's number, as fonts take it. No font has a glyph of a number above 65535, nor of that one.
///
/// <details><summary>Contract</summary>
///
/// # Contract
///
/// ```text
/// ensures { result ≡ number glyph.now }
/// ```
///
/// - `number`: `crates/shapers_indic/specs/Glyphs.antt`
///
/// </details>
#[inline]
pub fn number(glyph: &GlyphInfo) -> GlyphId {
    GlyphId(glyph.glyph_id.min(u32::from(u16::MAX)) as u16)
}

/// Whether a glyph is a joiner, and no lookup put it in for several.
///
/// <details><summary>Contract</summary>
///
/// # Contract
///
/// ```text
/// ensures { result ≡ is_joiner glyph.now }
/// ```
///
/// - `is_joiner`: `crates/shapers_indic/specs/Glyphs.antt`
///
/// </details>
#[inline]
pub fn is_joiner(glyph: &GlyphInfo) -> bool {
    !glyph.glyph_props.is_ligated() && matches!(glyph.category, OT_ZWJ | OT_ZWNJ)
}

/// Whether a glyph is a vowel sign.
///
/// <details><summary>Contract</summary>
///
/// # Contract
///
/// ```text
/// ensures { result ≡ is_matra glyph.now }
/// ```
///
/// - `is_matra`: `crates/shapers_indic/specs/Glyphs.antt`
///
/// </details>
#[inline]
pub fn is_matra(glyph: &GlyphInfo) -> bool {
    matches!(glyph.category, OT_M | OT_MPst)
}

/// Whether a syllable is one consonant at the base, which no lookup put in for several. No
/// reordering changes anything in such a syllable.
///
/// <details><summary>Contract</summary>
///
/// # Contract
///
/// ```text
/// ensures { result ≡ is_plain_consonant syllable.now }
/// ```
///
/// - `is_plain_consonant`: `crates/shapers_indic/specs/Glyphs.antt`
///
/// </details>
#[inline]
pub fn is_plain_consonant(syllable: &[GlyphInfo]) -> bool {
    match syllable {
        [glyph] => {
            glyph.category == OT_C
                && glyph.auxiliary == POS_BASE_C
                && !glyph.glyph_props.is_ligated()
        }
        _ => false,
    }
}
