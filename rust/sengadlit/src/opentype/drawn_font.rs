//! A font as it is drawn: with another glyph for missing characters than 0, and in other units.

use super::scale::Scale;
use crate::buffer::Tag;
use crate::font::{Font, GlyphId};
use crate::ot_shape_normalize::NormalizeFont;
use crate::ot_shape_position::MetricsFont;
use core::cell::Cell;

/// A font in which `instead`, if there is one, has the metrics of glyph 0: as long as no lookup has run,
/// that is the glyph of each character that the font lacks.
///
/// Advances are in font units until lookups are done, and then, as long as marks are stretched, in those
/// of the text.
pub(super) struct DrawnFont<'a, F> {
    pub font: &'a F,
    pub instead: Option<GlyphId>,
    pub scale: Option<Scale>,
    /// Whether the positions of the text are scaled by now.
    pub is_scaled: &'a Cell<bool>,
}

impl<F> DrawnFont<'_, F> {
    #[inline]
    fn drawn(&self, glyph: GlyphId) -> GlyphId {
        let instead = self.instead.filter(|_| glyph == GlyphId(0));
        instead.unwrap_or(glyph)
    }
}

impl<F: Font> Font for DrawnFont<'_, F> {
    #[inline]
    fn nominal_glyph(&self, c: u32) -> Option<GlyphId> {
        self.font.nominal_glyph(c)
    }

    #[inline]
    fn has_glyph(&self, c: u32) -> bool {
        self.font.has_glyph(c)
    }

    #[inline]
    fn glyph_h_advance(&self, glyph: GlyphId) -> i32 {
        let advance = self.font.glyph_h_advance(self.drawn(glyph));
        let scale = self.scale.filter(|_| self.is_scaled.get());
        scale.map_or(advance, |scale| scale.across(advance))
    }

    fn would_apply(&self, lookup: u16, glyphs: &[GlyphId], zero_context: bool) -> bool {
        self.font.would_apply(lookup, glyphs, zero_context)
    }

    fn would_apply_any(&self, lookups: &[u16], glyphs: &[GlyphId], zero_context: bool) -> bool {
        self.font.would_apply_any(lookups, glyphs, zero_context)
    }

    fn has_feature(&self, tag: Tag) -> bool {
        self.font.has_feature(tag)
    }

    fn may_panic(&self) -> bool {
        self.font.may_panic()
    }
}

impl<F: NormalizeFont> NormalizeFont for DrawnFont<'_, F> {
    fn variation_glyph(&self, c: u32, selector: u32) -> Option<GlyphId> {
        self.font.variation_glyph(c, selector)
    }
}

impl<F: MetricsFont> MetricsFont for DrawnFont<'_, F> {
    fn units_per_em(&self) -> u16 {
        self.font.units_per_em()
    }

    fn glyph_v_advance(&self, glyph: GlyphId) -> i32 {
        self.font.glyph_v_advance(self.drawn(glyph))
    }

    fn glyph_v_origin(&self, glyph: GlyphId) -> (i32, i32) {
        self.font.glyph_v_origin(self.drawn(glyph))
    }
}
