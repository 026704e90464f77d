//! Fonts made of parts: of what plan time needs, of what shaping needs, or of the glyphs for
//! characters alone.

use crate::buffer::Tag;
use crate::font::{Font, GlyphId};

mod wide;

pub use wide::{GlyphTooLarge, Wide, WideGlyphs};

/// What plan time needs of a font, and nothing else.
///
/// A function from a tag to `bool` implements it.
pub trait Features {
    /// Whether the font has a feature by this tag.
    fn has_feature(&self, tag: Tag) -> bool;
}

impl<F: Fn(Tag) -> bool> Features for F {
    fn has_feature(&self, tag: Tag) -> bool {
        self(tag)
    }
}

/// A [`Font`] for plan time alone: for [`Shaper::collect_features`](crate::Shaper::collect_features).
///
/// It returns whether the font has a feature. Every other method panics, since it has no result; plan
/// time calls none of them.
///
/// ```
/// use sengadlit::font::FeaturesOnly;
/// use sengadlit::{Planner, Script, ShaperError, Shaper, Tag, alloc::Global};
///
/// let font = FeaturesOnly(|tag: Tag| tag == Tag(*b"rclt"));
/// let mut planner = Planner::new(Global, Some(Script(*b"Arab")));
/// Shaper::Arabic.collect_features(&font, &mut planner)?;
/// # Ok::<(), ShaperError>(())
/// ```
#[derive(Clone, Copy, Debug, Default)]
pub struct FeaturesOnly<F>(pub F);

impl<F: Features> Font for FeaturesOnly<F> {
    fn nominal_glyph(&self, _c: u32) -> Option<GlyphId> {
        no_result("plan time", "a glyph")
    }

    fn has_glyph(&self, _c: u32) -> bool {
        no_result("plan time", "a glyph")
    }

    fn glyph_h_advance(&self, _glyph: GlyphId) -> i32 {
        no_result("plan time", "an advance")
    }

    fn would_apply(&self, _lookup: u16, _glyphs: &[GlyphId], _zero_context: bool) -> bool {
        no_result("plan time", "a lookup")
    }

    fn has_feature(&self, tag: Tag) -> bool {
        self.0.has_feature(tag)
    }
}

/// What shaping needs of a font: everything but its features. See [`Font`] for each method.
pub trait Glyphs {
    /// The font's own glyph for a character, before any lookup.
    fn nominal_glyph(&self, c: u32) -> Option<GlyphId>;

    /// How far a glyph moves the pen, in font units.
    fn glyph_h_advance(&self, glyph: GlyphId) -> i32;

    /// Whether the lookup would apply to exactly these glyphs; with `zero_context`, only if it
    /// needs no context around them.
    fn would_apply(&self, lookup: u16, glyphs: &[GlyphId], zero_context: bool) -> bool;

    /// Whether the font has a nominal glyph for a character.
    fn has_glyph(&self, c: u32) -> bool {
        self.nominal_glyph(c).is_some()
    }

    /// Whether one of the lookups would apply to exactly these glyphs.
    fn would_apply_any(&self, lookups: &[u16], glyphs: &[GlyphId], zero_context: bool) -> bool {
        let would_apply = |lookup: &u16| self.would_apply(*lookup, glyphs, zero_context);
        lookups.iter().any(would_apply)
    }

    /// Whether a question to the font may panic: see [`Font::may_panic`].
    fn may_panic(&self) -> bool {
        true
    }
}

/// A [`Font`] for shaping alone: for every hook and pause but
/// [`Shaper::collect_features`](crate::Shaper::collect_features).
///
/// [`Font::has_feature`] panics, since it has no result; shaping doesn't call it.
#[derive(Clone, Copy, Debug, Default)]
pub struct GlyphsOnly<F>(pub F);

impl<F: Glyphs> Font for GlyphsOnly<F> {
    fn nominal_glyph(&self, c: u32) -> Option<GlyphId> {
        self.0.nominal_glyph(c)
    }

    fn has_glyph(&self, c: u32) -> bool {
        self.0.has_glyph(c)
    }

    fn glyph_h_advance(&self, glyph: GlyphId) -> i32 {
        self.0.glyph_h_advance(glyph)
    }

    fn would_apply(&self, lookup: u16, glyphs: &[GlyphId], zero_context: bool) -> bool {
        self.0.would_apply(lookup, glyphs, zero_context)
    }

    fn would_apply_any(&self, lookups: &[u16], glyphs: &[GlyphId], zero_context: bool) -> bool {
        self.0.would_apply_any(lookups, glyphs, zero_context)
    }

    fn has_feature(&self, _tag: Tag) -> bool {
        no_result("shaping", "a feature")
    }

    fn may_panic(&self) -> bool {
        self.0.may_panic()
    }
}

impl<F: Glyphs + ?Sized> Glyphs for &F {
    fn nominal_glyph(&self, c: u32) -> Option<GlyphId> {
        (**self).nominal_glyph(c)
    }

    fn glyph_h_advance(&self, glyph: GlyphId) -> i32 {
        (**self).glyph_h_advance(glyph)
    }

    fn would_apply(&self, lookup: u16, glyphs: &[GlyphId], zero_context: bool) -> bool {
        (**self).would_apply(lookup, glyphs, zero_context)
    }

    fn has_glyph(&self, c: u32) -> bool {
        (**self).has_glyph(c)
    }

    fn would_apply_any(&self, lookups: &[u16], glyphs: &[GlyphId], zero_context: bool) -> bool {
        (**self).would_apply_any(lookups, glyphs, zero_context)
    }

    fn may_panic(&self) -> bool {
        (**self).may_panic()
    }
}

/// A [`Font`] that maps characters to glyphs, by a function: all that the shapers of Thai and Lao,
/// Khmer and Myanmar and the universal one need.
///
/// Every other method panics, since it has no result: advances (of Hangul and of marks that
/// stretch), lookups (of the Indic scripts) and features (of Arabic's plan time).
#[derive(Clone, Copy, Debug, Default)]
pub struct NominalOnly<F>(pub F);

impl<F: Fn(u32) -> Option<GlyphId>> Font for NominalOnly<F> {
    fn nominal_glyph(&self, c: u32) -> Option<GlyphId> {
        self.0(c)
    }

    fn has_glyph(&self, c: u32) -> bool {
        self.0(c).is_some()
    }

    fn glyph_h_advance(&self, _glyph: GlyphId) -> i32 {
        no_result("characters", "an advance")
    }

    fn would_apply(&self, _lookup: u16, _glyphs: &[GlyphId], _zero_context: bool) -> bool {
        no_result("characters", "a lookup")
    }

    fn has_feature(&self, _tag: Tag) -> bool {
        no_result("characters", "a feature")
    }
}

#[cold]
fn no_result(part: &str, question: &str) -> ! {
    panic!("a font for {part} alone has no result for {question}")
}

#[cfg(test)]
mod tests;
