//! Unicode's tables, as the shapers read them, and what else a text needs before the hooks.
//!
//! [`UnicodeTables`] implements [`Tables`](crate::Tables). It and the functions are of Unicode
//! [`UNICODE_VERSION`], and each is proved to return, for every code point, what the data files say.

pub use crate::generated::shapers_unicode::{
    UNICODE_VERSION, UnicodeTables, compose, decompose, general_category, indic_categories,
    is_default_ignorable, is_extended_pictographic, joining_type, mirrored,
    modified_combining_class, universal_category, vertical_form,
};

use crate::buffer::{Buffer, GlyphInfo, ShaperError, UnicodeProps};

impl Buffer {
    /// A buffer of the characters of a text, as [`Buffer::push_str`] adds them, with what Unicode says
    /// of each: general category, modified combining class, and the bits
    /// [`IGNORABLE`](UnicodeProps::IGNORABLE) and, for characters that are marks (Mn, Mc, Me),
    /// [`CONTINUATION`](UnicodeProps::CONTINUATION).
    /// [`set_unicode_properties`](crate::ot_shape_prepare::set_unicode_properties) notes what else
    /// continues a grapheme, as in emoji and flags.
    ///
    /// ```
    /// use sengadlit::unicode::UnicodeTables;
    /// use sengadlit::{Buffer, GeneralCategory};
    ///
    /// let buffer = Buffer::from_text("\u{0E01}\u{0E48}", &UnicodeTables)?;
    /// let mai_ek = buffer.get(1).unicode_props;
    /// assert_eq!(mai_ek.general_category(), GeneralCategory::Mn);
    /// assert_eq!(mai_ek.modified_combining_class(), 107);
    /// assert!(mai_ek.is_continuation());
    /// # Ok::<(), sengadlit::ShaperError>(())
    /// ```
    ///
    /// # Errors
    ///
    /// Those of [`Buffer::push_str`].
    pub fn from_text(text: &str, _tables: &UnicodeTables) -> Result<Self, ShaperError> {
        let mut buffer = Buffer::default();
        buffer.push_str(text)?;
        buffer.with_glyphs_mut(|glyphs| glyphs.iter_mut().for_each(set_properties));
        Ok(buffer)
    }
}

impl GlyphInfo {
    /// A character in its cluster with what Unicode says of it, as [`Buffer::from_text`] has it.
    #[inline]
    pub fn from_character(character: char, cluster: u32, _tables: &UnicodeTables) -> Self {
        let mut glyph = GlyphInfo::of_character(character, cluster);
        set_properties(&mut glyph);
        glyph
    }
}

// Only marks have a combining class. (The tests have that for every character.)
fn set_properties(glyph: &mut GlyphInfo) {
    let Some(character) = char::from_u32(glyph.glyph_id) else {
        return;
    };
    let category = general_category(character);
    let class = if category.is_mark() {
        modified_combining_class(character)
    } else {
        0
    };
    let mut props = UnicodeProps::new(category, class);
    props.set_ignorable(is_default_ignorable(character));
    props.set_continuation(category.is_mark());
    glyph.unicode_props = props;
}

#[cfg(test)]
mod tests;
