// Generated from crates/shapers_base/src/font.rt by rust/erase; edit the source.

//! What the shapers read of a font and of the Unicode tables. Both are functions: the same question
//! has the same result.

use crate::generated::shapers_base::buffer::{GeneralCategory, Tag};
use crate::generated::shapers_base::plan::{Category, JoiningType, Position};

/// A glyph of a font, by its number, in two bytes.
#[repr(transparent)]
#[derive(Clone, Copy, Debug, PartialEq, Eq, Hash, PartialOrd, Ord)]
pub struct GlyphId(pub u16);

/// A font, as far as the shapers read it.
pub trait Font {
    /// The font's own glyph for a character, before any lookup.
    ///
    /// <details><summary>Contract</summary>
    ///
    /// # Contract
    ///
    /// ```text
    /// ensures { result ≡ (font self.now).nominal c }
    /// ```
    ///
    /// </details>
    fn nominal_glyph(&self, c: u32) -> Option<GlyphId>;

    /// Whether the font has a nominal glyph for a character. An impl overrides this where it knows
    /// without making the glyph.
    ///
    /// <details><summary>Contract</summary>
    ///
    /// # Contract
    ///
    /// ```text
    /// ensures { result ≡ has_nominal (font self.now) c }
    /// ```
    ///
    /// - `has_nominal`: `crates/shapers_base/specs/Font.antt`
    ///
    /// </details>
    #[inline]
    fn has_glyph(&self, c: u32) -> bool {
        self.nominal_glyph(c).is_some()
    }

    /// How far a glyph moves the pen, in font units.
    ///
    /// <details><summary>Contract</summary>
    ///
    /// # Contract
    ///
    /// ```text
    /// ensures { result ≡ (font self.now).advance glyph }
    /// ```
    ///
    /// </details>
    fn glyph_h_advance(&self, glyph: GlyphId) -> i32;

    /// Whether the lookup of this number in GSUB would apply to exactly these glyphs; with
    /// `zero_context`, only if it needs no context around them.
    ///
    /// <details><summary>Contract</summary>
    ///
    /// # Contract
    ///
    /// ```text
    /// ensures { result ≡ (font self.now).applies lookup glyphs.now zero_context }
    /// ```
    ///
    /// </details>
    fn would_apply(&self, lookup: u16, glyphs: &[GlyphId], zero_context: bool) -> bool;

    /// Whether one of these lookups would apply to exactly these glyphs. This calls [`would_apply`]
    /// for each up to the first that would; an impl overrides it where it knows that at once.
    ///
    /// <details><summary>Contract</summary>
    ///
    /// # Contract
    ///
    /// ```text
    /// ensures { result ≡ would_one (font self.now).applies lookups.now glyphs.now zero_context }
    /// ```
    ///
    /// - `would_one`: `crates/shapers_base/specs/Map.antt`
    ///
    /// </details>
    ///
    /// [`would_apply`]: crate::Font::would_apply
    #[inline]
    fn would_apply_any(&self, lookups: &[u16], glyphs: &[GlyphId], zero_context: bool) -> bool {
        lookups
            .iter()
            .any(|lookup| self.would_apply(*lookup, glyphs, zero_context))
    }

    /// Whether the font has a feature by this tag.
    ///
    /// <details><summary>Contract</summary>
    ///
    /// # Contract
    ///
    /// ```text
    /// ensures { result ≡ (font self.now).offers tag }
    /// ```
    ///
    /// </details>
    fn has_feature(&self, tag: Tag) -> bool;

    /// Whether a question to the font may panic. An impl overrides this where none does: then a text
    /// needn't stand outside its buffer while the font is asked.
    #[inline]
    fn may_panic(&self) -> bool {
        true
    }
}

/// The tables of the Unicode Character Database and of the shapers, as far as they are read.
pub trait Tables {
    /// How a character joins its neighbours.
    ///
    /// <details><summary>Contract</summary>
    ///
    /// # Contract
    ///
    /// ```text
    /// ensures { result ≡ (tables self.now).joining c }
    /// ```
    ///
    /// </details>
    fn joining_type(&self, c: char) -> JoiningType;

    /// The general category of a character.
    ///
    /// <details><summary>Contract</summary>
    ///
    /// # Contract
    ///
    /// ```text
    /// ensures { result ≡ (tables self.now).general c }
    /// ```
    ///
    /// </details>
    fn general_category(&self, c: char) -> GeneralCategory;

    /// The category and the position of a character in the Indic, Khmer and Myanmar shapers.
    ///
    /// <details><summary>Contract</summary>
    ///
    /// # Contract
    ///
    /// ```text
    /// ensures { result ≡ (tables self.now).indic c }
    /// ```
    ///
    /// </details>
    fn indic_categories(&self, c: u32) -> (Category, Position);

    /// The category of a character in the universal shaper.
    ///
    /// <details><summary>Contract</summary>
    ///
    /// # Contract
    ///
    /// ```text
    /// ensures { result ≡ (tables self.now).universal c }
    /// ```
    ///
    /// </details>
    fn use_category(&self, c: u32) -> Category;

    /// The character that two characters compose to, as Unicode's canonical composition has it.
    ///
    /// <details><summary>Contract</summary>
    ///
    /// # Contract
    ///
    /// ```text
    /// ensures { result ≡ (tables self.now).composed a b }
    /// ```
    ///
    /// </details>
    fn compose(&self, a: char, b: char) -> Option<char>;

    /// The two characters that a character decomposes to by Unicode's canonical decomposition.
    ///
    /// <details><summary>Contract</summary>
    ///
    /// # Contract
    ///
    /// ```text
    /// ensures { result ≡ (tables self.now).decomposed ab }
    /// ```
    ///
    /// </details>
    fn decompose(&self, ab: char) -> Option<(char, char)>;

    /// Whether a question to the tables may panic. An impl overrides this where none does.
    #[inline]
    fn may_panic(&self) -> bool {
        true
    }
}
