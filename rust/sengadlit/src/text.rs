//! Texts into buffers, and glyphs out of them.

use crate::alloc::{Global, Vec};
use crate::buffer::{
    Buffer, BufferSettings, Direction, GeneralCategory, GlyphInfo, GlyphPosition, LookupRecord,
    ShaperError,
};
use crate::font::Tables;
use crate::generated::shapers_buffer::buffer::GlyphChange;
use core::fmt;
use core::slice;

impl GlyphInfo {
    /// A character in its cluster, of category Cc, with nothing else.
    #[inline]
    pub const fn of_character(character: char, cluster: u32) -> Self {
        GlyphInfo {
            glyph_id: character as u32,
            cluster,
            ..GlyphInfo::DEFAULT
        }
    }
}

impl Default for GlyphInfo {
    #[inline]
    fn default() -> Self {
        GlyphInfo::DEFAULT
    }
}

impl Default for GlyphPosition {
    #[inline]
    fn default() -> Self {
        GlyphPosition::ZERO
    }
}

impl Buffer {
    /// The greatest length of a buffer for which none is set, as of one that [`Buffer::default`] makes.
    /// `ot_shape::shape` bounds such a text by its length.
    pub const MAX_LEN_DEFAULT: usize = 0x3FFF_FFFF;

    /// Adds the characters of a text, each of general category Cc; see
    /// [`Buffer::set_general_categories`]. Their clusters are the places of their bytes in the
    /// text.
    ///
    /// # Errors
    ///
    /// [`ShaperError::Memory`] and [`ShaperError::TooLong`], the latter also where a place doesn't fit
    /// 32 bits. Nothing is added then.
    pub fn push_str(&mut self, text: &str) -> Result<(), ShaperError> {
        if u32::try_from(text.len()).is_err() {
            return Err(ShaperError::TooLong);
        }
        let start = self.len();
        self.grow(text.chars().count())?;
        // (as a slice, since each glyph that is set by its place costs a test)
        self.with_glyphs_mut(|glyphs| write_characters(&mut glyphs[start..], text));
        Ok(())
    }

    /// Sets the general category of each character, as the tables have it. Stretched marks depend on
    /// it, and in Indic where a word begins. A combining class stays, but where the old category or
    /// the new one is Cf or Zs, which have none, the high byte of
    /// [`UnicodeProps`](crate::buffer::UnicodeProps) is 0 then. Glyphs that are no characters stay as
    /// they are.
    pub fn set_general_categories<T: Tables>(&mut self, tables: &T) {
        // (tables that panic leave the empty buffer, and no text with some categories)
        self.change_outside(&Categorizing(tables));
    }

    /// Sets all settings. A greatest length below the buffer's length counts as its length, as for
    /// [`Buffer::set_max_len`].
    #[inline]
    pub fn set_settings(&mut self, settings: &BufferSettings<'_>) {
        self.set_settings_within(&BufferSettings {
            max_len: settings.max_len.max(self.len()),
            ..*settings
        });
    }

    /// Makes the buffer ready for another text: glyphs, positions and contexts go, script, direction
    /// and the record of lookups are those of a new buffer, and no syllable is broken and no mark
    /// stretched any more. Cluster level, flags, `max_len` and memory stay, as in HarfBuzz's
    /// `hb_buffer_clear_contents`.
    pub fn clear(&mut self) {
        self.truncate(0);
        self.set_pre_context(&[]);
        self.set_post_context(&[]);
        self.set_script(None);
        self.set_direction(Direction::LeftToRight);
        self.set_has_broken_syllable(false);
        self.set_has_stch(false);
        self.set_lookup_record(LookupRecord::for_text(0));
    }

    /// Sets the text before the buffer's, of which the last five characters are kept, and the text
    /// after it, of which the first five are kept.
    pub fn set_contexts(&mut self, before: &str, after: &str) {
        self.set_context_before(before);
        self.set_context_after(after);
    }

    pub(crate) fn set_context_before(&mut self, before: &str) {
        self.set_pre_context(nearest(before.chars().rev(), &mut [' '; 5]));
    }

    pub(crate) fn set_context_after(&mut self, after: &str) {
        self.set_post_context(nearest(after.chars(), &mut [' '; 5]));
    }
}

/// An empty buffer of the default greatest length. It takes no memory.
impl Default for Buffer {
    fn default() -> Self {
        Buffer::new(Global, Buffer::MAX_LEN_DEFAULT)
    }
}

/// A buffer of the characters of a text, as [`Buffer::push_str`] adds them.
///
/// # Panics
///
/// Where `push_str` returns an error: the text is too long, or memory is refused.
impl From<&str> for Buffer {
    fn from(text: &str) -> Self {
        let mut buffer = Buffer::default();
        let pushed = buffer.push_str(text);
        pushed.expect("the text fits the buffer and memory");
        buffer
    }
}

/// A buffer of glyphs.
///
/// # Panics
///
/// If there are 2³⁰ glyphs or more, or memory is refused.
impl FromIterator<GlyphInfo> for Buffer {
    fn from_iter<I: IntoIterator<Item = GlyphInfo>>(glyphs: I) -> Self {
        let glyphs: rust_alloc::vec::Vec<_> = glyphs.into_iter().collect();
        let mut buffer = Buffer::default();
        let replaced = buffer.replace_glyphs(Vec::from(glyphs));
        replaced.expect("the glyphs fit the buffer and memory");
        buffer
    }
}

impl Buffer {
    /// The glyphs, one after the other.
    #[inline]
    pub fn iter(&self) -> slice::Iter<'_, GlyphInfo> {
        self.glyphs().iter()
    }
}

impl AsRef<[GlyphInfo]> for Buffer {
    #[inline]
    fn as_ref(&self) -> &[GlyphInfo] {
        self.glyphs()
    }
}

impl<'a> IntoIterator for &'a Buffer {
    type Item = &'a GlyphInfo;
    type IntoIter = slice::Iter<'a, GlyphInfo>;

    #[inline]
    fn into_iter(self) -> slice::Iter<'a, GlyphInfo> {
        self.glyphs().iter()
    }
}

// Writes the characters of a text of at most 2^32 - 1 bytes, with the places of their bytes as clusters.
#[inline]
pub(crate) fn write_characters(glyphs: &mut [GlyphInfo], text: &str) {
    for (glyph, (place, character)) in glyphs.iter_mut().zip(text.char_indices()) {
        #[expect(
            clippy::cast_possible_truncation,
            reason = "it fits, as the length of the text does"
        )]
        let cluster = place as u32;
        *glyph = GlyphInfo::of_character(character, cluster);
    }
}

// The first characters of these, in the room that is given.
pub(crate) fn nearest(characters: impl Iterator<Item = char>, room: &mut [char; 5]) -> &[char] {
    let mut len = 0;
    for (to, character) in room.iter_mut().zip(characters) {
        *to = character;
        len += 1;
    }
    &room[..len]
}

// Gives a character the general category that the tables have.
struct Categorizing<'a, T>(&'a T);

impl<T: Tables> GlyphChange for Categorizing<'_, T> {
    fn change(&self, glyph: &mut GlyphInfo) {
        if let Some(character) = char::from_u32(glyph.glyph_id) {
            let category = self.0.general_category(character);
            glyph.unicode_props.set_general_category(category);
        }
    }
}

impl fmt::Display for GeneralCategory {
    fn fmt(&self, f: &mut fmt::Formatter<'_>) -> fmt::Result {
        fmt::Debug::fmt(self, f)
    }
}

#[cfg(test)]
mod tests;
