//! Fonts and tables through references, so that a `&dyn Font` is a font, too.

use crate::buffer::{GeneralCategory, Tag};
use crate::font::{Font, GlyphId, Tables};
use crate::plan::{Category, JoiningType, Position};

impl<F: Font + ?Sized> Font for &F {
    fn nominal_glyph(&self, c: u32) -> Option<GlyphId> {
        (**self).nominal_glyph(c)
    }

    fn has_glyph(&self, c: u32) -> bool {
        (**self).has_glyph(c)
    }

    fn glyph_h_advance(&self, glyph: GlyphId) -> i32 {
        (**self).glyph_h_advance(glyph)
    }

    fn would_apply(&self, lookup: u16, glyphs: &[GlyphId], zero_context: bool) -> bool {
        (**self).would_apply(lookup, glyphs, zero_context)
    }

    fn would_apply_any(&self, lookups: &[u16], glyphs: &[GlyphId], zero_context: bool) -> bool {
        (**self).would_apply_any(lookups, glyphs, zero_context)
    }

    fn has_feature(&self, tag: Tag) -> bool {
        (**self).has_feature(tag)
    }

    fn may_panic(&self) -> bool {
        (**self).may_panic()
    }
}

impl<T: Tables + ?Sized> Tables for &T {
    fn joining_type(&self, c: char) -> JoiningType {
        (**self).joining_type(c)
    }

    fn general_category(&self, c: char) -> GeneralCategory {
        (**self).general_category(c)
    }

    fn indic_categories(&self, c: u32) -> (Category, Position) {
        (**self).indic_categories(c)
    }

    fn use_category(&self, c: u32) -> Category {
        (**self).use_category(c)
    }

    fn compose(&self, a: char, b: char) -> Option<char> {
        (**self).compose(a, b)
    }

    fn decompose(&self, ab: char) -> Option<(char, char)> {
        (**self).decompose(ab)
    }

    fn may_panic(&self) -> bool {
        (**self).may_panic()
    }
}
