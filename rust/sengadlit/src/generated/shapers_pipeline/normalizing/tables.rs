// Generated from crates/shapers_pipeline/src/normalizing/tables.rt by rust/erase; edit the source.

//! What normalization reads of a font and of Unicode besides what the shapers read.

use crate::generated::shapers_base::font::{Font, GlyphId, Tables};
use crate::generated::shapers_unicode::{
    UnicodeTables, is_default_ignorable, modified_combining_class,
};

/// A font that has the forms that variation selectors select.
pub trait NormalizeFont: Font {
    /// The font's glyph for a character in the form that a variation selector selects, by the
    /// mapping's format 14.
    ///
    /// <details><summary>Contract</summary>
    ///
    /// # Contract
    ///
    /// ```text
    /// ensures { result ≡ variants self.now c selector }
    /// ```
    ///
    /// </details>
    fn variation_glyph(&self, c: u32, selector: u32) -> Option<GlyphId>;
}

/// Unicode's tables with the classes of marks and the ignorable characters.
pub trait NormalizeTables: Tables {
    /// The class by which a mark is ordered: its canonical combining class as the shapers change
    /// it.
    ///
    /// <details><summary>Contract</summary>
    ///
    /// # Contract
    ///
    /// ```text
    /// ensures { result ≡ (texts self.now).class c }
    /// ```
    ///
    /// </details>
    fn modified_combining_class(&self, c: char) -> u8;

    /// Whether a character is ignored by default, as the shapers have it.
    ///
    /// <details><summary>Contract</summary>
    ///
    /// # Contract
    ///
    /// ```text
    /// ensures { result ≡ (texts self.now).ignorable c }
    /// ```
    ///
    /// </details>
    fn is_default_ignorable(&self, c: char) -> bool;
}

impl NormalizeTables for UnicodeTables {
    #[inline]
    fn modified_combining_class(&self, c: char) -> u8 {
        modified_combining_class(c)
    }

    #[inline]
    fn is_default_ignorable(&self, c: char) -> bool {
        is_default_ignorable(c)
    }
}
