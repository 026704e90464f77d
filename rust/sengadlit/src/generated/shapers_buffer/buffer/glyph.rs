// Generated from crates/shapers_buffer/src/buffer/glyph.rt by rust/erase; edit the source.

use super::category::GeneralCategory;
use super::glyph_props::GlyphProps;
use super::lig_props::LigProps;
use super::unicode_props::UnicodeProps;

/// One glyph of the buffer, or before the font's mapping one character: 20 bytes, each where
/// HarfBuzz's glyph info has it.
#[repr(C)]
#[derive(Clone, Copy, Debug, PartialEq, Eq, Hash)]
pub struct GlyphInfo {
    /// A character before the font's mapping, a glyph number after it.
    pub glyph_id: u32,
    /// The features that are on, above the three glyph flags.
    pub mask: u32,
    /// The place in the text that the glyph leads back to.
    pub cluster: u32,
    /// What lookups did to the glyph.
    pub glyph_props: GlyphProps,
    /// The ligature that the glyph is or belongs to.
    pub lig_props: LigProps,
    /// The syllable: a serial in the high four bits, the kind in the low four.
    pub syllable: u8,
    /// What the glyph's character is.
    pub unicode_props: UnicodeProps,
    /// What the character is in its syllable, by the shaper's own table (HarfBuzz's Indic and
    /// universal categories).
    pub category: u8,
    /// What else its shaper notes of it: an Arabic form, a Hangul jamo's feature, an Indic or Myanmar
    /// position.
    pub auxiliary: u8,
}

impl GlyphInfo {
    /// All zero, of category Cc, with no marks.
    pub const DEFAULT: Self = GlyphInfo {
        glyph_id: 0,
        mask: 0,
        cluster: 0,
        glyph_props: GlyphProps::NONE,
        lig_props: LigProps::NONE,
        syllable: 0,
        unicode_props: UnicodeProps::NONE,
        category: 0,
        auxiliary: 0,
    };

    /// The `General_Category` of the glyph's character in the Unicode Character Database.
    ///
    /// <details><summary>Contract</summary>
    ///
    /// # Contract
    ///
    /// ```text
    /// ensures { result ≡ general_category self.now.unicode_props }
    /// ```
    ///
    /// - `general_category`: `crates/shapers_buffer/specs/Properties.antt`
    ///
    /// </details>
    #[inline]
    pub fn general_category(&self) -> GeneralCategory {
        self.unicode_props.general_category()
    }

    /// The canonical combining class of the glyph's character, as HarfBuzz renumbers it.
    ///
    /// <details><summary>Contract</summary>
    ///
    /// # Contract
    ///
    /// ```text
    /// ensures { result ≡ modified_combining_class self.now.unicode_props }
    /// ```
    ///
    /// - `modified_combining_class`: `crates/shapers_buffer/specs/Properties.antt`
    ///
    /// </details>
    #[inline]
    pub fn modified_combining_class(&self) -> u8 {
        self.unicode_props.modified_combining_class()
    }

    /// The component of a ligature that a mark is attached to, or which part of several the glyph
    /// is, 0 to 15: 0 for a ligature itself.
    ///
    /// <details><summary>Contract</summary>
    ///
    /// # Contract
    ///
    /// ```text
    /// ensures { result ≡ component self.now.lig_props }
    /// ```
    ///
    /// - `component`: `crates/shapers_buffer/specs/Properties.antt`
    ///
    /// </details>
    #[inline]
    pub fn lig_comp(&self) -> u8 {
        self.lig_props.component()
    }

    /// Whether a lookup put the glyph in.
    ///
    /// <details><summary>Contract</summary>
    ///
    /// # Contract
    ///
    /// ```text
    /// ensures { result ≡ is_substituted self.now.glyph_props }
    /// ```
    ///
    /// - `is_substituted`: `crates/shapers_buffer/specs/Properties.antt`
    ///
    /// </details>
    #[inline]
    pub fn substituted(&self) -> bool {
        self.glyph_props.is_substituted()
    }

    /// Whether a lookup put the glyph in for several.
    ///
    /// <details><summary>Contract</summary>
    ///
    /// # Contract
    ///
    /// ```text
    /// ensures { result ≡ is_ligated self.now.glyph_props }
    /// ```
    ///
    /// - `is_ligated`: `crates/shapers_buffer/specs/Properties.antt`
    ///
    /// </details>
    #[inline]
    pub fn ligated(&self) -> bool {
        self.glyph_props.is_ligated()
    }

    /// Whether a lookup put the glyph in as one of several for one.
    ///
    /// <details><summary>Contract</summary>
    ///
    /// # Contract
    ///
    /// ```text
    /// ensures { result ≡ is_multiplied self.now.glyph_props }
    /// ```
    ///
    /// - `is_multiplied`: `crates/shapers_buffer/specs/Properties.antt`
    ///
    /// </details>
    #[inline]
    pub fn multiplied(&self) -> bool {
        self.glyph_props.is_multiplied()
    }

    /// Whether the glyph's character may stay undrawn (`Default_Ignorable_Code_Point`).
    ///
    /// <details><summary>Contract</summary>
    ///
    /// # Contract
    ///
    /// ```text
    /// ensures { result ≡ is_ignorable self.now.unicode_props }
    /// ```
    ///
    /// - `is_ignorable`: `crates/shapers_buffer/specs/Properties.antt`
    ///
    /// </details>
    #[inline]
    pub fn ignorable(&self) -> bool {
        self.unicode_props.is_ignorable()
    }

    /// Whether the glyph's character carries on the grapheme of the one before it.
    ///
    /// <details><summary>Contract</summary>
    ///
    /// # Contract
    ///
    /// ```text
    /// ensures { result ≡ is_continuation self.now.unicode_props }
    /// ```
    ///
    /// - `is_continuation`: `crates/shapers_buffer/specs/Properties.antt`
    ///
    /// </details>
    #[inline]
    pub fn continuation(&self) -> bool {
        self.unicode_props.is_continuation()
    }

    /// Sets the category, as `UnicodeProps::set_general_category` does.
    ///
    /// <details><summary>Contract</summary>
    ///
    /// # Contract
    ///
    /// ```text
    /// ensures { self.new ≡ record self.old {
    ///   unicode_props = with_general_category category self.old.unicode_props;
    /// } }
    /// ```
    ///
    /// - `with_general_category`: `crates/shapers_buffer/specs/Properties.antt`
    ///
    /// </details>
    #[inline]
    pub fn set_general_category(&mut self, category: GeneralCategory) {
        self.unicode_props.set_general_category(category);
    }

    /// Sets the class, as `UnicodeProps::set_modified_combining_class` does.
    ///
    /// <details><summary>Contract</summary>
    ///
    /// # Contract
    ///
    /// ```text
    /// ensures { self.new ≡ record self.old {
    ///   unicode_props = with_modified_combining_class class self.old.unicode_props;
    /// } }
    /// ```
    ///
    /// - `with_modified_combining_class`: `crates/shapers_buffer/specs/Properties.antt`
    ///
    /// </details>
    #[inline]
    pub fn set_modified_combining_class(&mut self, class: u8) {
        self.unicode_props.set_modified_combining_class(class);
    }

    /// Sets the component, of which the low four bits count; the glyph isn't a ligature itself then.
    ///
    /// <details><summary>Contract</summary>
    ///
    /// # Contract
    ///
    /// ```text
    /// ensures { self.new ≡ record self.old {
    ///   lig_props = with_component component self.old.lig_props;
    /// } }
    /// ```
    ///
    /// - `component`, `with_component`: `crates/shapers_buffer/specs/Properties.antt`
    ///
    /// </details>
    #[inline]
    pub fn set_lig_comp(&mut self, component: u8) {
        self.lig_props.set_component(component);
    }

    /// Sets whether a lookup put the glyph in.
    ///
    /// <details><summary>Contract</summary>
    ///
    /// # Contract
    ///
    /// ```text
    /// ensures { self.new ≡ record self.old {
    ///   glyph_props = set_mark SUBSTITUTED on self.old.glyph_props;
    /// } }
    /// ```
    ///
    /// - `SUBSTITUTED`, `set_mark`: `crates/shapers_buffer/specs/Properties.antt`
    ///
    /// </details>
    #[inline]
    pub fn set_substituted(&mut self, on: bool) {
        self.glyph_props.set_substituted(on);
    }

    /// Sets whether a lookup put the glyph in for several.
    ///
    /// <details><summary>Contract</summary>
    ///
    /// # Contract
    ///
    /// ```text
    /// ensures { self.new ≡ record self.old {
    ///   glyph_props = set_mark LIGATED on self.old.glyph_props;
    /// } }
    /// ```
    ///
    /// - `LIGATED`, `set_mark`: `crates/shapers_buffer/specs/Properties.antt`
    ///
    /// </details>
    #[inline]
    pub fn set_ligated(&mut self, on: bool) {
        self.glyph_props.set_ligated(on);
    }

    /// Sets whether a lookup put the glyph in as one of several for one.
    ///
    /// <details><summary>Contract</summary>
    ///
    /// # Contract
    ///
    /// ```text
    /// ensures { self.new ≡ record self.old {
    ///   glyph_props = set_mark MULTIPLIED on self.old.glyph_props;
    /// } }
    /// ```
    ///
    /// - `MULTIPLIED`, `set_mark`: `crates/shapers_buffer/specs/Properties.antt`
    ///
    /// </details>
    #[inline]
    pub fn set_multiplied(&mut self, on: bool) {
        self.glyph_props.set_multiplied(on);
    }

    /// Sets whether the glyph's character may stay undrawn (`Default_Ignorable_Code_Point`).
    ///
    /// <details><summary>Contract</summary>
    ///
    /// # Contract
    ///
    /// ```text
    /// ensures { self.new ≡ record self.old {
    ///   unicode_props = set_property IGNORABLE on self.old.unicode_props;
    /// } }
    /// ```
    ///
    /// - `IGNORABLE`, `set_property`: `crates/shapers_buffer/specs/Properties.antt`
    ///
    /// </details>
    #[inline]
    pub fn set_ignorable(&mut self, on: bool) {
        self.unicode_props.set_ignorable(on);
    }

    /// Sets whether the glyph's character carries on the grapheme of the one before it.
    ///
    /// <details><summary>Contract</summary>
    ///
    /// # Contract
    ///
    /// ```text
    /// ensures { self.new ≡ record self.old {
    ///   unicode_props = set_property CONTINUATION on self.old.unicode_props;
    /// } }
    /// ```
    ///
    /// - `CONTINUATION`, `set_property`: `crates/shapers_buffer/specs/Properties.antt`
    ///
    /// </details>
    #[inline]
    pub fn set_continuation(&mut self, on: bool) {
        self.unicode_props.set_continuation(on);
    }
}

/// Where a glyph is drawn and how far it moves the pen, in font units: 20 bytes, each where HarfBuzz's
/// `hb_glyph_position_t` has it.
#[repr(C)]
#[derive(Clone, Copy, Debug, PartialEq, Eq, Hash)]
pub struct GlyphPosition {
    /// How far the pen moves to the right behind the glyph.
    pub x_advance: i32,
    /// How far the pen moves up behind the glyph.
    pub y_advance: i32,
    /// How far to the right of the pen the glyph is drawn.
    pub x_offset: i32,
    /// How far above the pen the glyph is drawn.
    pub y_offset: i32,
    /// What the caller's lookups keep with the position; the hooks carry it along and never read it.
    pub var: u32,
}

impl GlyphPosition {
    /// All zero.
    pub const ZERO: Self = GlyphPosition {
        x_advance: 0,
        y_advance: 0,
        x_offset: 0,
        y_offset: 0,
        var: 0,
    };
}
