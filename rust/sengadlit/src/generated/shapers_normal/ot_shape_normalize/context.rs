// Generated from crates/shapers_normal/src/ot_shape_normalize/context.rt by rust/erase; edit the source.

//! What normalization reads of the shaper, the font and Unicode.

use crate::generated::shapers_base::buffer::{BufferClusterLevel, GeneralCategory, GlyphInfo};
use crate::generated::shapers_base::font::GlyphId;
use crate::generated::shapers_base::plan::NormalizationMode;

/// A shaper with its plan, a font and Unicode's tables, as normalization reads them. Each is a
/// function: the same call has the same result.
pub trait NormalizeContext {
    /// Which form of the text the shaper prefers.
    ///
    /// <details><summary>Contract</summary>
    ///
    /// # Contract
    ///
    /// ```text
    /// ensures { result ≡ (context self.now).mode }
    /// ```
    ///
    /// </details>
    fn normalization_preference(&self) -> NormalizationMode;

    /// The two characters that one comes apart into for the shaper; the second is 0 where there is
    /// one alone.
    ///
    /// <details><summary>Contract</summary>
    ///
    /// # Contract
    ///
    /// ```text
    /// ensures { result ≡ (context self.now).decomposed ab }
    /// ```
    ///
    /// </details>
    fn decompose(&self, ab: u32) -> Option<(u32, u32)>;

    /// The character that two compose to for the shaper.
    ///
    /// <details><summary>Contract</summary>
    ///
    /// # Contract
    ///
    /// ```text
    /// ensures { result ≡ (context self.now).composed a b }
    /// ```
    ///
    /// </details>
    fn compose(&self, a: u32, b: u32) -> Option<u32>;

    /// The font's own glyph for a character.
    ///
    /// <details><summary>Contract</summary>
    ///
    /// # Contract
    ///
    /// ```text
    /// ensures { result ≡ (context self.now).nominal c }
    /// ```
    ///
    /// </details>
    fn nominal_glyph(&self, c: u32) -> Option<GlyphId>;

    /// The font's glyph for a character in the form that a variation selector selects.
    ///
    /// <details><summary>Contract</summary>
    ///
    /// # Contract
    ///
    /// ```text
    /// ensures { result ≡ (context self.now).variant c selector }
    /// ```
    ///
    /// </details>
    fn variation_glyph(&self, c: u32, selector: u32) -> Option<GlyphId>;

    /// Whether the font has a glyph for a character. An impl overrides this where it knows without
    /// making the glyph.
    ///
    /// <details><summary>Contract</summary>
    ///
    /// # Contract
    ///
    /// ```text
    /// ensures { result ≡ has_glyph (context self.now) c }
    /// ```
    ///
    /// - `has_glyph`: `crates/shapers_normal/specs/Context.antt`
    ///
    /// </details>
    #[inline]
    fn has_glyph(&self, c: u32) -> bool {
        self.nominal_glyph(c).is_some()
    }

    /// The general category of a character.
    ///
    /// <details><summary>Contract</summary>
    ///
    /// # Contract
    ///
    /// ```text
    /// ensures { result ≡ (context self.now).general c }
    /// ```
    ///
    /// </details>
    fn general_category(&self, c: u32) -> GeneralCategory;

    /// The combining class of a mark, as the shapers renumber it.
    ///
    /// <details><summary>Contract</summary>
    ///
    /// # Contract
    ///
    /// ```text
    /// ensures { result ≡ (context self.now).class c }
    /// ```
    ///
    /// </details>
    fn modified_combining_class(&self, c: u32) -> u8;

    /// Whether a character is ignored by default, as the shapers have it.
    ///
    /// <details><summary>Contract</summary>
    ///
    /// # Contract
    ///
    /// ```text
    /// ensures { result ≡ (context self.now).ignorable c }
    /// ```
    ///
    /// </details>
    fn is_default_ignorable(&self, c: u32) -> bool;

    /// The glyph for what isn't drawn, if the caller has one.
    ///
    /// <details><summary>Contract</summary>
    ///
    /// # Contract
    ///
    /// ```text
    /// ensures { result ≡ (context self.now).invisible }
    /// ```
    ///
    /// </details>
    fn invisible_glyph(&self) -> Option<GlyphId>;

    /// Whether the caller has a glyph for selectors that select nothing: they aren't ignorable
    /// then.
    ///
    /// <details><summary>Contract</summary>
    ///
    /// # Contract
    ///
    /// ```text
    /// ensures { result ≡ (context self.now).draws_selectors }
    /// ```
    ///
    /// </details>
    fn draws_selectors(&self) -> bool;

    /// Orders the marks from `start` to `end`, at most 32 that are sorted by class, as the shaper
    /// wants them. What stands behind them keeps its classes.
    ///
    /// # Panics
    ///
    /// May panic where `start` isn't below `end`, `end` is above the number of glyphs, or there are more than 32 marks:
    /// [`normalize`](crate::ot_shape_normalize::normalize) never makes such a call.
    ///
    /// <details><summary>Contract</summary>
    ///
    /// # Contract
    ///
    /// ```text
    /// requires in_order { start < end }
    /// requires in_range { end ≤ length glyphs.old }
    /// requires few { end ≤ start + 32 }
    /// ensures marks { glyphs.new ≡ (context self.now).reordered level start end glyphs.old }
    /// ensures behind { drop end (classes glyphs.new) ≡ drop end (classes glyphs.old) }
    /// ```
    ///
    /// - `classes`: `crates/shapers_normal/specs/Sorting.antt`
    ///
    /// </details>
    fn reorder_marks(
        &self,
        level: BufferClusterLevel,
        glyphs: &mut [GlyphInfo],
        start: usize,
        end: usize,
    );
}
