// Generated from crates/shapers_pipeline/src/normalizing/context.rt by rust/erase; edit the source.

//! A shaper with its plan, a font and Unicode's tables, as normalization reads them.

use super::hooks::{character, compose, decompose, order_marks};
use super::tables::{NormalizeFont, NormalizeTables};
use crate::generated::rustybuzz_shapers::shaper::Shaper;
use crate::generated::shapers_base::buffer::{BufferClusterLevel, GeneralCategory, GlyphInfo};
use crate::generated::shapers_base::font::GlyphId;
use crate::generated::shapers_base::plan::{NormalizationMode, Plan};
use crate::generated::shapers_normal::ot_shape_normalize::NormalizeContext;

// What normalization reads: a shaper, its plan, a font, tables, and two of the caller's settings.
#[derive(Clone, Copy)]
pub(crate) struct ShaperContext<'a, F: NormalizeFont, T: NormalizeTables> {
    pub(crate) shaper: Option<Shaper>,
    pub(crate) plan: &'a Plan,
    pub(crate) font: &'a F,
    pub(crate) tables: &'a T,
    pub(crate) invisible_glyph: Option<GlyphId>,
    pub(crate) draws_selectors: bool,
}

impl<'a, F: NormalizeFont, T: NormalizeTables> NormalizeContext for ShaperContext<'a, F, T> {
    #[inline]
    fn normalization_preference(&self) -> NormalizationMode {
        match self.shaper {
            Some(shaper) => shaper.normalization_preference(),
            None => NormalizationMode::AUTO,
        }
    }

    #[inline]
    fn decompose(&self, ab: u32) -> Option<(u32, u32)> {
        let (a, b) = decompose(self.shaper, self.plan, self.tables, character(ab)?)?;
        Some((u32::from(a), u32::from(b)))
    }

    #[inline]
    fn compose(&self, a: u32, b: u32) -> Option<u32> {
        let (a, b) = (character(a)?, character(b)?);
        let composed = compose(self.shaper, self.plan, self.tables, a, b)?;
        Some(u32::from(composed))
    }

    #[inline]
    fn nominal_glyph(&self, c: u32) -> Option<GlyphId> {
        self.font.nominal_glyph(c)
    }

    #[inline]
    fn variation_glyph(&self, c: u32, selector: u32) -> Option<GlyphId> {
        self.font.variation_glyph(c, selector)
    }

    #[inline]
    fn has_glyph(&self, c: u32) -> bool {
        self.font.has_glyph(c)
    }

    #[inline]
    fn general_category(&self, c: u32) -> GeneralCategory {
        match character(c) {
            Some(c) => self.tables.general_category(c),
            None => GeneralCategory::Cn,
        }
    }

    #[inline]
    fn modified_combining_class(&self, c: u32) -> u8 {
        match character(c) {
            Some(c) => self.tables.modified_combining_class(c),
            None => 0,
        }
    }

    #[inline]
    fn is_default_ignorable(&self, c: u32) -> bool {
        match character(c) {
            Some(c) => self.tables.is_default_ignorable(c),
            None => false,
        }
    }

    #[inline]
    fn invisible_glyph(&self) -> Option<GlyphId> {
        self.invisible_glyph
    }

    #[inline]
    fn draws_selectors(&self) -> bool {
        self.draws_selectors
    }

    #[inline]
    fn reorder_marks(
        &self,
        level: BufferClusterLevel,
        glyphs: &mut [GlyphInfo],
        start: usize,
        end: usize,
    ) {
        order_marks(self.shaper, level, glyphs, start, end);
    }
}
