// Generated from crates/shapers_buffer/src/buffer/unicode_props.rt by rust/erase; edit the source.

//! What a glyph's character is, in the bits in which HarfBuzz keeps it.

use super::bits::set_bit;
use super::category::GeneralCategory;
use crate::support::bitflags::bitflag_items;

/// What the glyph's character is (HarfBuzz's `unicode_props`): its general category in the low five
/// bits, three bits of their own, and in the high byte the canonical combining class.
#[repr(transparent)]
#[derive(Clone, Copy, PartialEq, Eq, Hash)]
pub struct UnicodeProps(pub u16);

bitflag_items! {
    impl UnicodeProps: u16 {
        /// The character may stay undrawn (`Default_Ignorable_Code_Point`).
        const IGNORABLE = 0x20;
        /// Lookups see the character, though it is ignorable.
        const HIDDEN = 0x40;
        /// The character carries on the grapheme of the one before it.
        const CONTINUATION = 0x80;
    }
}

impl UnicodeProps {
    /// All zero: category Cc.
    pub const NONE: Self = UnicodeProps(0);

    /// The properties of a character of this category, with this high byte and no bit between.
    ///
    /// <details><summary>Contract</summary>
    ///
    /// # Contract
    ///
    /// ```text
    /// ensures { result ≡ properties category high_byte }
    /// ```
    ///
    /// - `high_byte`, `properties`: `crates/shapers_buffer/specs/Properties.antt`
    ///
    /// </details>
    #[inline]
    pub fn new(category: GeneralCategory, high_byte: u8) -> Self {
        UnicodeProps(u16::from(category.number()) + 256 * u16::from(high_byte))
    }

    /// The character's `General_Category` in the Unicode Character Database; Cn for the two numbers
    /// that are none.
    ///
    /// <details><summary>Contract</summary>
    ///
    /// # Contract
    ///
    /// ```text
    /// ensures { result ≡ general_category self }
    /// ```
    ///
    /// - `general_category`: `crates/shapers_buffer/specs/Properties.antt`
    ///
    /// </details>
    #[inline]
    pub fn general_category(self) -> GeneralCategory {
        GeneralCategory::from_number_or_unassigned((self.0 % 32) as u8)
    }

    /// The high byte: the combining class, which joiner a format character is, a space's kind.
    ///
    /// <details><summary>Contract</summary>
    ///
    /// # Contract
    ///
    /// ```text
    /// ensures { result ≡ high_byte self }
    /// ```
    ///
    /// - `high_byte`: `crates/shapers_buffer/specs/Properties.antt`
    ///
    /// </details>
    #[inline]
    pub fn high_byte(self) -> u8 {
        (self.0 >> 8) as u8
    }

    /// The canonical combining class, as HarfBuzz renumbers it (`modified_combining_class`): 0
    /// where the category is Cf or Zs, which have none.
    ///
    /// <details><summary>Contract</summary>
    ///
    /// # Contract
    ///
    /// ```text
    /// ensures { result ≡ modified_combining_class self }
    /// ```
    ///
    /// - `modified_combining_class`: `crates/shapers_buffer/specs/Properties.antt`
    ///
    /// </details>
    #[inline]
    pub fn modified_combining_class(self) -> u8 {
        if self.general_category().has_class() {
            self.high_byte()
        } else {
            0
        }
    }

    /// Whether the character may stay undrawn (`Default_Ignorable_Code_Point`).
    ///
    /// <details><summary>Contract</summary>
    ///
    /// # Contract
    ///
    /// ```text
    /// ensures { result ≡ is_ignorable self }
    /// ```
    ///
    /// - `is_ignorable`: `crates/shapers_buffer/specs/Properties.antt`
    ///
    /// </details>
    #[inline]
    pub fn is_ignorable(self) -> bool {
        self.contains(UnicodeProps::IGNORABLE)
    }

    /// Whether lookups see the character, though it is ignorable.
    ///
    /// <details><summary>Contract</summary>
    ///
    /// # Contract
    ///
    /// ```text
    /// ensures { result ≡ is_hidden self }
    /// ```
    ///
    /// - `is_hidden`: `crates/shapers_buffer/specs/Properties.antt`
    ///
    /// </details>
    #[inline]
    pub fn is_hidden(self) -> bool {
        self.contains(UnicodeProps::HIDDEN)
    }

    /// Whether the character carries on the grapheme of the one before it.
    ///
    /// <details><summary>Contract</summary>
    ///
    /// # Contract
    ///
    /// ```text
    /// ensures { result ≡ is_continuation self }
    /// ```
    ///
    /// - `is_continuation`: `crates/shapers_buffer/specs/Properties.antt`
    ///
    /// </details>
    #[inline]
    pub fn is_continuation(self) -> bool {
        self.contains(UnicodeProps::CONTINUATION)
    }

    /// Sets the category. The combining class stays; where the old category or the new one is Cf or
    /// Zs, which have none, the high byte is 0 then.
    ///
    /// <details><summary>Contract</summary>
    ///
    /// # Contract
    ///
    /// ```text
    /// ensures { self.new ≡ with_general_category category self.old }
    /// ```
    ///
    /// - `with_general_category`: `crates/shapers_buffer/specs/Properties.antt`
    ///
    /// </details>
    #[inline]
    pub fn set_general_category(&mut self, category: GeneralCategory) {
        let class = if category.has_class() {
            self.modified_combining_class()
        } else {
            0
        };
        let bits = self.0 / 32 % 8 * 32 + u16::from(category.number());
        self.0 = bits + 256 * u16::from(class);
    }

    /// Sets the high byte.
    ///
    /// <details><summary>Contract</summary>
    ///
    /// # Contract
    ///
    /// ```text
    /// ensures { self.new ≡ with_high_byte byte self.old }
    /// ```
    ///
    /// - `with_high_byte`: `crates/shapers_buffer/specs/Properties.antt`
    ///
    /// </details>
    #[inline]
    pub fn set_high_byte(&mut self, byte: u8) {
        self.0 = self.0 & 0xFF | u16::from(byte) << 8;
    }

    /// Sets the combining class; where the category is Cf or Zs, which have none, nothing changes.
    ///
    /// <details><summary>Contract</summary>
    ///
    /// # Contract
    ///
    /// ```text
    /// ensures { self.new ≡ with_modified_combining_class class self.old }
    /// ```
    ///
    /// - `with_modified_combining_class`: `crates/shapers_buffer/specs/Properties.antt`
    ///
    /// </details>
    #[inline]
    pub fn set_modified_combining_class(&mut self, class: u8) {
        if self.general_category().has_class() {
            self.set_high_byte(class);
        }
    }

    /// Sets whether the character may stay undrawn (`Default_Ignorable_Code_Point`).
    ///
    /// <details><summary>Contract</summary>
    ///
    /// # Contract
    ///
    /// ```text
    /// ensures { self.new ≡ set_property IGNORABLE on self.old }
    /// ```
    ///
    /// - `IGNORABLE`, `set_property`: `crates/shapers_buffer/specs/Properties.antt`
    ///
    /// </details>
    #[inline]
    pub fn set_ignorable(&mut self, on: bool) {
        self.0 = set_bit(self.0, UnicodeProps::IGNORABLE.0, on);
    }

    /// Sets whether lookups see the character, though it is ignorable.
    ///
    /// <details><summary>Contract</summary>
    ///
    /// # Contract
    ///
    /// ```text
    /// ensures { self.new ≡ set_property HIDDEN on self.old }
    /// ```
    ///
    /// - `HIDDEN`, `set_property`: `crates/shapers_buffer/specs/Properties.antt`
    ///
    /// </details>
    #[inline]
    pub fn set_hidden(&mut self, on: bool) {
        self.0 = set_bit(self.0, UnicodeProps::HIDDEN.0, on);
    }

    /// Sets whether the character carries on the grapheme of the one before it.
    ///
    /// <details><summary>Contract</summary>
    ///
    /// # Contract
    ///
    /// ```text
    /// ensures { self.new ≡ set_property CONTINUATION on self.old }
    /// ```
    ///
    /// - `CONTINUATION`, `set_property`: `crates/shapers_buffer/specs/Properties.antt`
    ///
    /// </details>
    #[inline]
    pub fn set_continuation(&mut self, on: bool) {
        self.0 = set_bit(self.0, UnicodeProps::CONTINUATION.0, on);
    }
}
