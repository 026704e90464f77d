// Generated from crates/shapers_buffer/src/buffer/glyph_props.rt by rust/erase; edit the source.

//! What lookups did to a glyph, in the bits in which HarfBuzz keeps it.

use super::bits::set_bit;
use crate::support::bitflags::bitflag_items;

/// What lookups did to the glyph, and its class, a bit for each (HarfBuzz's `glyph_props`). The hooks
/// neither read nor write the class and the bits without a name. Between normalization and the glyphs
/// it holds the number of the character's glyph instead.
#[repr(transparent)]
#[derive(Clone, Copy, PartialEq, Eq, Hash)]
pub struct GlyphProps(pub u16);

bitflag_items! {
    impl GlyphProps: u16 {
        /// `GDEF`'s class of the glyph is a base.
        const BASE_GLYPH = 0x02;
        /// `GDEF`'s class of the glyph is a ligature.
        const LIGATURE = 0x04;
        /// `GDEF`'s class of the glyph is a mark.
        const MARK = 0x08;
        /// A lookup put the glyph in.
        const SUBSTITUTED = 0x10;
        /// A lookup put the glyph in for several.
        const LIGATED = 0x20;
        /// A lookup put the glyph in as one of several for one.
        const MULTIPLIED = 0x40;
    }
}

impl GlyphProps {
    /// No bit.
    pub const NONE: Self = GlyphProps(0);

    /// Whether a lookup put the glyph in.
    ///
    /// <details><summary>Contract</summary>
    ///
    /// # Contract
    ///
    /// ```text
    /// ensures { result ≡ is_substituted self }
    /// ```
    ///
    /// - `is_substituted`: `crates/shapers_buffer/specs/Properties.antt`
    ///
    /// </details>
    #[inline]
    pub fn is_substituted(self) -> bool {
        self.contains(GlyphProps::SUBSTITUTED)
    }

    /// Whether a lookup put the glyph in for several.
    ///
    /// <details><summary>Contract</summary>
    ///
    /// # Contract
    ///
    /// ```text
    /// ensures { result ≡ is_ligated self }
    /// ```
    ///
    /// - `is_ligated`: `crates/shapers_buffer/specs/Properties.antt`
    ///
    /// </details>
    #[inline]
    pub fn is_ligated(self) -> bool {
        self.contains(GlyphProps::LIGATED)
    }

    /// Whether a lookup put the glyph in as one of several for one.
    ///
    /// <details><summary>Contract</summary>
    ///
    /// # Contract
    ///
    /// ```text
    /// ensures { result ≡ is_multiplied self }
    /// ```
    ///
    /// - `is_multiplied`: `crates/shapers_buffer/specs/Properties.antt`
    ///
    /// </details>
    #[inline]
    pub fn is_multiplied(self) -> bool {
        self.contains(GlyphProps::MULTIPLIED)
    }

    /// Sets whether a lookup put the glyph in.
    ///
    /// <details><summary>Contract</summary>
    ///
    /// # Contract
    ///
    /// ```text
    /// ensures { self.new ≡ set_mark SUBSTITUTED on self.old }
    /// ```
    ///
    /// - `SUBSTITUTED`, `set_mark`: `crates/shapers_buffer/specs/Properties.antt`
    ///
    /// </details>
    #[inline]
    pub fn set_substituted(&mut self, on: bool) {
        self.0 = set_bit(self.0, GlyphProps::SUBSTITUTED.0, on);
    }

    /// Sets whether a lookup put the glyph in for several.
    ///
    /// <details><summary>Contract</summary>
    ///
    /// # Contract
    ///
    /// ```text
    /// ensures { self.new ≡ set_mark LIGATED on self.old }
    /// ```
    ///
    /// - `LIGATED`, `set_mark`: `crates/shapers_buffer/specs/Properties.antt`
    ///
    /// </details>
    #[inline]
    pub fn set_ligated(&mut self, on: bool) {
        self.0 = set_bit(self.0, GlyphProps::LIGATED.0, on);
    }

    /// Sets whether a lookup put the glyph in as one of several for one.
    ///
    /// <details><summary>Contract</summary>
    ///
    /// # Contract
    ///
    /// ```text
    /// ensures { self.new ≡ set_mark MULTIPLIED on self.old }
    /// ```
    ///
    /// - `MULTIPLIED`, `set_mark`: `crates/shapers_buffer/specs/Properties.antt`
    ///
    /// </details>
    #[inline]
    pub fn set_multiplied(&mut self, on: bool) {
        self.0 = set_bit(self.0, GlyphProps::MULTIPLIED.0, on);
    }
}
