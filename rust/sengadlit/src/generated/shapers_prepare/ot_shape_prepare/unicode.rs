// Generated from crates/shapers_prepare/src/ot_shape_prepare/unicode.rt by rust/erase; edit the source.

//! What preparing a text reads of Unicode.

use super::properties::properties_of_kind;
use crate::generated::shapers_base::buffer::{GeneralCategory, UnicodeProps};
use crate::generated::shapers_unicode::UnicodeTables;

/// Properties of characters, by their numbers. Each is a function: the same call has the same
/// result.
pub trait UnicodeProperties {
    /// The general category of a character.
    ///
    /// <details><summary>Contract</summary>
    ///
    /// # Contract
    ///
    /// ```text
    /// ensures { result ≡ (properties self.now).general c }
    /// ```
    ///
    /// </details>
    fn general_category(&self, c: u32) -> GeneralCategory;

    /// The combining class of a mark, as the shapers renumber it.
    ///
    /// <details><summary>Contract</summary>
    ///
    /// # Contract
    ///
    /// ```text
    /// ensures { result ≡ (properties self.now).class c }
    /// ```
    ///
    /// </details>
    fn modified_combining_class(&self, c: u32) -> u8;

    /// Whether a character is ignored by default, as the shapers have it.
    ///
    /// <details><summary>Contract</summary>
    ///
    /// # Contract
    ///
    /// ```text
    /// ensures { result ≡ (properties self.now).ignorable c }
    /// ```
    ///
    /// </details>
    fn is_default_ignorable(&self, c: u32) -> bool;

    /// The first three at once. An impl overrides this where one look-up tells them all.
    ///
    /// <details><summary>Contract</summary>
    ///
    /// # Contract
    ///
    /// ```text
    /// ensures { let p = properties self.now in
    ///     result ≡ (p.general c, p.class c, p.ignorable c) }
    /// ```
    ///
    /// </details>
    #[inline]
    fn character_kind(&self, c: u32) -> (GeneralCategory, u8, bool) {
        (
            self.general_category(c),
            self.modified_combining_class(c),
            self.is_default_ignorable(c),
        )
    }

    /// What a glyph keeps of a character that carries on a grapheme only if it is a mark. An impl
    /// overrides this where one look-up tells it.
    ///
    /// <details><summary>Contract</summary>
    ///
    /// # Contract
    ///
    /// ```text
    /// ensures { let p = properties self.now in
    ///     result ≡ stored_properties p (is_mark_character p c) c }
    /// ```
    ///
    /// - `is_mark_character`, `stored_properties`: `crates/shapers_prepare/specs/GlyphProperties.antt`
    ///
    /// </details>
    #[inline]
    fn stored_properties(&self, c: u32) -> UnicodeProps {
        let (general, class, ignorable) = self.character_kind(c);
        properties_of_kind(general, class, ignorable, false, c)
    }

    /// Whether a character is a pictograph of emoji (`Extended_Pictographic`).
    ///
    /// <details><summary>Contract</summary>
    ///
    /// # Contract
    ///
    /// ```text
    /// ensures { result ≡ (properties self.now).pictographic c }
    /// ```
    ///
    /// </details>
    fn is_extended_pictographic(&self, c: u32) -> bool;

    /// The mirrored character, if there is one.
    ///
    /// <details><summary>Contract</summary>
    ///
    /// # Contract
    ///
    /// ```text
    /// ensures { result ≡ (properties self.now).mirroring c }
    /// ```
    ///
    /// </details>
    fn mirrored(&self, c: u32) -> Option<u32>;

    /// The form for vertical text, if there is one.
    ///
    /// <details><summary>Contract</summary>
    ///
    /// # Contract
    ///
    /// ```text
    /// ensures { result ≡ (properties self.now).vertical c }
    /// ```
    ///
    /// </details>
    fn vertical_form(&self, c: u32) -> Option<u32>;
}

// Unicode's tables, in which a number that is no character has the properties of U+FFFD.
impl UnicodeProperties for UnicodeTables {
    #[inline]
    fn general_category(&self, c: u32) -> GeneralCategory {
        crate::generated::shapers_unicode::general_category(character(c))
    }

    #[inline]
    fn modified_combining_class(&self, c: u32) -> u8 {
        crate::generated::shapers_unicode::modified_combining_class(character(c))
    }

    #[inline]
    fn is_default_ignorable(&self, c: u32) -> bool {
        crate::generated::shapers_unicode::is_default_ignorable(character(c))
    }

    #[inline(always)]
    fn character_kind(&self, c: u32) -> (GeneralCategory, u8, bool) {
        crate::generated::shapers_unicode::character_kind(character(c))
    }

    // (in the walk, with the look-up, as a call for each character takes longer than both)
    #[inline(always)]
    fn stored_properties(&self, c: u32) -> UnicodeProps {
        let props = UnicodeProps(crate::generated::shapers_unicode::character_bits(c));
        if props.is_ignorable() {
            let (general, class, ignorable) =
                crate::generated::shapers_unicode::character_kind(character(c));
            return properties_of_kind(general, class, ignorable, false, c);
        }
        props
    }

    #[inline]
    fn is_extended_pictographic(&self, c: u32) -> bool {
        crate::generated::shapers_unicode::is_extended_pictographic(character(c))
    }

    #[inline]
    fn mirrored(&self, c: u32) -> Option<u32> {
        number(crate::generated::shapers_unicode::mirrored(character(c)))
    }

    #[inline]
    fn vertical_form(&self, c: u32) -> Option<u32> {
        number(crate::generated::shapers_unicode::vertical_form(character(
            c,
        )))
    }
}

// The character of this number, or U+FFFD where it is none.
#[inline]
fn character(number: u32) -> char {
    char::from_u32(number).unwrap_or(char::REPLACEMENT_CHARACTER)
}

// The number of a character.
#[inline]
fn number(character: Option<char>) -> Option<u32> {
    Some(character? as u32)
}
