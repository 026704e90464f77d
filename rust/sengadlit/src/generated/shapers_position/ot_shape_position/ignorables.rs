// Generated from crates/shapers_position/src/ot_shape_position/ignorables.rt by rust/erase; edit the source.

//! Glyphs of characters that need not be drawn.

use crate::generated::shapers_base::buffer::GlyphInfo;

/// What becomes of glyphs whose character need not be drawn.
#[derive(Clone, Copy, Debug, PartialEq, Eq, Hash)]
pub enum DefaultIgnorables {
    /// They have no width and are drawn by an invisible glyph; in a font without one they go.
    Hide,
    /// They are drawn as any other glyph (`PRESERVE_DEFAULT_IGNORABLES`).
    Preserve,
    /// They go (`REMOVE_DEFAULT_IGNORABLES`).
    Remove,
}

// HarfBuzz's bits.
const HARFBUZZ_PRESERVE: u32 = 4;

const HARFBUZZ_REMOVE: u32 = 8;

impl DefaultIgnorables {
    /// What HarfBuzz's flags of a buffer (`hb_buffer_flags_t`) request, by bits 0x4 to preserve and
    /// 0x8 to remove: where both are set, to preserve.
    ///
    /// <details><summary>Contract</summary>
    ///
    /// # Contract
    ///
    /// ```text
    /// ensures { result ≡ ignorables_for bits }
    /// ```
    ///
    /// - `ignorables_for`: `crates/shapers_position/specs/Ignorables.antt`
    ///
    /// </details>
    #[inline]
    pub fn from_harfbuzz(bits: u32) -> Self {
        if bits & HARFBUZZ_PRESERVE == HARFBUZZ_PRESERVE {
            DefaultIgnorables::Preserve
        } else if bits & HARFBUZZ_REMOVE == HARFBUZZ_REMOVE {
            DefaultIgnorables::Remove
        } else {
            DefaultIgnorables::Hide
        }
    }
}

// Whether a glyph's character need not be drawn, and no lookup put the glyph in: a font that does
// wants it seen.
#[inline]
pub(super) fn is_default_ignorable(glyph: &GlyphInfo) -> bool {
    glyph.unicode_props.is_ignorable() && !glyph.glyph_props.is_substituted()
}

// Whether a text has such a glyph: what is done to these leaves a text without one as it is.
#[inline]
pub(super) fn has_ignorable(glyphs: &[GlyphInfo]) -> bool {
    glyphs.iter().any(is_default_ignorable)
}
