//! A text that is to be shaped.

use super::SerializeFlags;
use super::settings::Replacements;
use crate::alloc::{Global, Vec};
use crate::buffer::{
    Buffer, BufferClusterLevel, BufferFlags, Direction, GlyphInfo, GlyphPosition, Script,
    ShaperError,
};
use crate::font::GlyphId;
use crate::language::Language;
use core::fmt::{self, Write};
use core::slice;
use rust_alloc::string::String;

/// How many bytes a text may have that isn't counted before room is made for it.
const MOST_UNCOUNTED: usize = 64;

/// A text that is to be shaped: its characters with their clusters, and what is known of it.
///
/// Script and direction that aren't set are guessed by [`shape`](super::shape()), as
/// [`guess_segment_properties`](Self::guess_segment_properties) does.
pub struct UnicodeBuffer {
    // (a list of one, since a list refuses memory by an error)
    parts: Vec<TextParts>,
}

/// What there is of a text. It stands behind a pointer, since a text is handed on and back by value.
pub(super) struct TextParts {
    /// The characters, or the glyphs that became of them.
    pub glyphs: Vec<GlyphInfo>,
    /// Their positions, once the text has been shaped.
    pub positions: Vec<GlyphPosition>,
    /// What else is known of the text. It has no glyphs but while a call works on them, and takes no memory
    /// before that: the call may have a buffer of its own.
    pub buffer: Buffer,
    pub replacements: Replacements,
    pub language: Option<Language>,
}

impl TextParts {
    /// Lends the text to a call, in its buffer.
    ///
    /// # Errors
    ///
    /// [`ShaperError::Memory`], for room in the buffer; nothing has changed then.
    #[inline]
    pub fn in_buffer<R>(
        &mut self,
        call: impl FnOnce(&mut Buffer, &Replacements) -> R,
    ) -> Result<R, ShaperError> {
        let TextParts {
            glyphs,
            positions,
            buffer,
            replacements,
            ..
        } = self;
        lend(glyphs, positions, buffer, |buffer| {
            call(buffer, replacements)
        })
    }

    /// Lends the text to a call that shapes it, in a buffer whose room is used again.
    ///
    /// # Errors
    ///
    /// [`ShaperError::Memory`], for room in the buffer; nothing has changed then.
    #[inline]
    pub fn in_room<R>(
        &mut self,
        room: &mut Buffer,
        call: impl FnOnce(&mut Buffer, &Replacements) -> R,
    ) -> Result<R, ShaperError> {
        // (a call that panicked may have left a text there)
        room.truncate(0);
        room.set_settings(&self.buffer.settings());
        let (glyphs, positions) = (&mut self.glyphs, &mut self.positions);
        let replacements = &self.replacements;
        let result = lend(glyphs, positions, room, |buffer| call(buffer, replacements))?;
        self.buffer.set_direction(room.direction());
        self.buffer.set_script(room.script());
        self.buffer.set_lookup_record(room.lookup_record());
        Ok(result)
    }
}

/// Puts a text into a buffer that has none, for a call, and takes out what becomes of it.
#[inline]
fn lend<R>(
    glyphs: &mut Vec<GlyphInfo>,
    positions: &mut Vec<GlyphPosition>,
    buffer: &mut Buffer,
    call: impl FnOnce(&mut Buffer) -> R,
) -> Result<R, ShaperError> {
    buffer.exchange_glyphs(glyphs)?;
    let are_in = buffer.exchange_positions(positions);
    let result = call(buffer);
    let are_out = buffer.exchange_positions(positions);
    debug_assert!(are_in && are_out, "each glyph has a position, or none has");
    // (it gets its own list back, which is empty and takes no memory)
    buffer.exchange_glyphs(glyphs)?;
    Ok(result)
}

impl UnicodeBuffer {
    /// An empty buffer.
    ///
    /// # Panics
    ///
    /// Memory is refused: see [`try_new`](Self::try_new).
    pub fn new() -> Self {
        UnicodeBuffer::try_new().expect("memory isn't refused")
    }

    /// An empty buffer. It takes half a kilobyte.
    ///
    /// # Errors
    ///
    /// [`ShaperError::Memory`].
    pub fn try_new() -> Result<Self, ShaperError> {
        let mut buffer = Buffer::default();
        buffer.set_direction(Direction::Invalid);
        let mut parts = Vec::with_capacity(Global, 1)?;
        let pushed = parts.push(TextParts {
            glyphs: Vec::new(Global),
            positions: Vec::new(Global),
            buffer,
            replacements: Replacements::default(),
            language: None,
        });
        pushed.map_err(|_| ShaperError::Memory)?;
        Ok(UnicodeBuffer { parts })
    }

    /// What there is of the text.
    #[inline]
    pub(super) fn parts(&self) -> &TextParts {
        &self.parts[0]
    }

    /// What there is of the text, to be changed.
    #[inline]
    pub(super) fn parts_mut(&mut self) -> &mut TextParts {
        &mut self.parts[0]
    }

    #[inline]
    fn buffer(&self) -> &Buffer {
        &self.parts().buffer
    }

    #[inline]
    fn buffer_mut(&mut self) -> &mut Buffer {
        &mut self.parts_mut().buffer
    }

    /// The characters, or the glyphs that became of them.
    #[inline]
    fn glyphs(&self) -> slice::Iter<'_, GlyphInfo> {
        self.parts().glyphs.iter()
    }

    /// How many characters the text has.
    pub fn len(&self) -> usize {
        self.parts().glyphs.len()
    }

    /// Whether the text has no characters.
    pub fn is_empty(&self) -> bool {
        self.len() == 0
    }

    /// Adds the characters of a text. The cluster of each is its offset in `text`, in bytes.
    ///
    /// # Panics
    ///
    /// Memory is refused, or the buffer has 2³⁰ characters or more: see
    /// [`try_push_str`](Self::try_push_str).
    pub fn push_str(&mut self, text: &str) {
        self.try_push_str(text)
            .expect("the text fits the buffer and memory");
    }

    /// Adds the characters of a text, as [`push_str`](Self::push_str) does.
    ///
    /// # Errors
    ///
    /// [`ShaperError::Memory`] and [`ShaperError::TooLong`]; nothing is added then.
    pub fn try_push_str(&mut self, text: &str) -> Result<(), ShaperError> {
        if u32::try_from(text.len()).is_err() {
            return Err(ShaperError::TooLong);
        }
        let most = self.most_characters(text);
        let glyphs = self.list_for(most)?;
        glyphs.reserve(most)?;
        for (place, character) in text.char_indices() {
            #[expect(
                clippy::cast_possible_truncation,
                reason = "it fits, as the length of the text does"
            )]
            let cluster = place as u32;
            // (there is room for it)
            let pushed = glyphs.push(GlyphInfo::of_character(character, cluster));
            pushed.map_err(|_| ShaperError::Memory)?;
        }
        Ok(())
    }

    /// For how many characters of a text room is made. A short text isn't counted where there is room for
    /// as many as it has bytes, since it has no more characters.
    #[inline]
    fn most_characters(&mut self, text: &str) -> usize {
        if text.len() <= MOST_UNCOUNTED && self.list_for(text.len()).is_ok() {
            text.len()
        } else {
            text.chars().count()
        }
    }

    /// The list of characters, if it may have so many more.
    #[inline]
    fn list_for(&mut self, count: usize) -> Result<&mut Vec<GlyphInfo>, ShaperError> {
        let TextParts { glyphs, buffer, .. } = self.parts_mut();
        if buffer.max_len() - glyphs.len() < count {
            return Err(ShaperError::TooLong);
        }
        Ok(glyphs)
    }

    /// Adds a character with its cluster.
    ///
    /// # Panics
    ///
    /// Memory is refused, or the buffer has 2³⁰ characters or more: see [`try_add`](Self::try_add).
    pub fn add(&mut self, character: char, cluster: u32) {
        self.try_add(character, cluster)
            .expect("the character fits the buffer and memory");
    }

    /// Adds a character with its cluster.
    ///
    /// # Errors
    ///
    /// [`ShaperError::Memory`] and [`ShaperError::TooLong`]; nothing is added then.
    pub fn try_add(&mut self, character: char, cluster: u32) -> Result<(), ShaperError> {
        let pushed = self
            .list_for(1)?
            .push(GlyphInfo::of_character(character, cluster));
        pushed.map_err(|_| ShaperError::Memory)
    }

    /// Makes room for so many more characters.
    ///
    /// # Errors
    ///
    /// [`ShaperError::Memory`].
    pub fn try_reserve(&mut self, additional: usize) -> Result<(), ShaperError> {
        self.parts_mut().glyphs.reserve(additional)?;
        Ok(())
    }

    /// The characters with their clusters.
    pub fn characters(&self) -> impl Iterator<Item = (char, u32)> + Clone + '_ {
        self.glyphs().map(|glyph| {
            let character = char::from_u32(glyph.glyph_id).unwrap_or(char::REPLACEMENT_CHARACTER);
            (character, glyph.cluster)
        })
    }

    /// Numbers the clusters of the characters 0, 1, 2 ..
    pub fn reset_clusters(&mut self) {
        for (glyph, cluster) in self.parts_mut().glyphs.iter_mut().zip(0..) {
            glyph.cluster = cluster;
        }
    }

    /// Sets the text before this one, of which the last five characters are kept. Arabic letters join
    /// by it.
    pub fn set_pre_context(&mut self, text: &str) {
        self.buffer_mut().set_context_before(text);
    }

    /// Sets the text behind this one, of which the first five characters are kept.
    pub fn set_post_context(&mut self, text: &str) {
        self.buffer_mut().set_context_after(text);
    }

    /// The text's direction; `Invalid` where none is set.
    pub fn direction(&self) -> Direction {
        self.buffer().direction()
    }

    /// Sets the text's direction.
    pub fn set_direction(&mut self, direction: Direction) {
        self.buffer_mut().set_direction(direction);
    }

    /// The text's script, if one is set.
    pub fn script(&self) -> Option<Script> {
        self.buffer().script()
    }

    /// Sets the text's script.
    pub fn set_script(&mut self, script: Script) {
        self.buffer_mut().set_script(Some(script));
    }

    /// The text's language, if one is set.
    pub fn language(&self) -> Option<Language> {
        self.parts().language
    }

    /// Sets the text's language. Where none is set, the text gets what fonts have for all languages; the
    /// locale is never asked.
    pub fn set_language(&mut self, language: Language) {
        self.parts_mut().language = Some(language);
    }

    /// Sets the script, where none is set, to that of the first character that has one of its own, and
    /// then the direction, where none is set, to that of the script (HarfBuzz's
    /// `hb_buffer_guess_segment_properties`).
    pub fn guess_segment_properties(&mut self) {
        if self.script().is_none() {
            let script = self.guessed_script();
            self.buffer_mut().set_script(script);
        }
        if self.direction() == Direction::Invalid {
            let direction = self.script().map(Script::direction);
            self.set_direction(direction.unwrap_or(Direction::LeftToRight));
        }
    }

    // The script of the first character that has one of its own.
    pub(super) fn guessed_script(&self) -> Option<Script> {
        let mut characters = self
            .glyphs()
            .filter_map(|glyph| char::from_u32(glyph.glyph_id));
        characters.find_map(Script::of_char)
    }

    /// Brings the characters of each grapheme, as a letter with its accents, into one cluster. With the
    /// level `Characters`, at which no other clusters merge, that is HarfBuzz's level Graphemes.
    ///
    /// # Panics
    ///
    /// Memory is refused: see [`try_merge_graphemes`](Self::try_merge_graphemes).
    pub fn merge_graphemes(&mut self) {
        self.try_merge_graphemes().expect("memory isn't refused");
    }

    /// Brings the characters of each grapheme into one cluster, as
    /// [`merge_graphemes`](Self::merge_graphemes) does.
    ///
    /// # Errors
    ///
    /// [`ShaperError::Memory`]; nothing has changed then.
    pub fn try_merge_graphemes(&mut self) -> Result<(), ShaperError> {
        self.parts_mut()
            .in_buffer(|buffer, _| buffer.merge_graphemes())
    }

    /// The flags that say where the text begins and ends, and what shaping does beside its work.
    pub fn flags(&self) -> BufferFlags {
        self.buffer().flags()
    }

    /// Sets the flags.
    pub fn set_flags(&mut self, flags: BufferFlags) {
        self.buffer_mut().set_flags(flags);
    }

    /// Which characters share a cluster.
    pub fn cluster_level(&self) -> BufferClusterLevel {
        self.buffer().cluster_level()
    }

    /// Sets which characters share a cluster.
    pub fn set_cluster_level(&mut self, level: BufferClusterLevel) {
        self.buffer_mut().set_cluster_level(level);
    }

    /// The glyph that stands for what isn't drawn; the font's space where none is set.
    pub fn invisible_glyph(&self) -> Option<GlyphId> {
        self.parts().replacements.invisible
    }

    /// Sets the glyph that stands for what isn't drawn.
    pub fn set_invisible_glyph(&mut self, glyph: Option<GlyphId>) {
        self.parts_mut().replacements.invisible = glyph;
    }

    /// The glyph of characters that the font lacks; glyph 0 where none is set.
    pub fn not_found_glyph(&self) -> Option<GlyphId> {
        self.parts().replacements.not_found
    }

    /// Sets the glyph of characters that the font lacks.
    pub fn set_not_found_glyph(&mut self, glyph: Option<GlyphId>) {
        self.parts_mut().replacements.not_found = glyph;
    }

    /// The glyph of variation selectors that select nothing; where none is set they aren't drawn.
    pub fn not_found_variation_selector_glyph(&self) -> Option<u32> {
        self.parts().replacements.not_found_selector
    }

    /// Sets the glyph of variation selectors that select nothing.
    pub fn set_not_found_variation_selector_glyph(&mut self, glyph: Option<u32>) {
        self.parts_mut().replacements.not_found_selector = glyph;
    }

    /// The characters in one line, as hb-shape prints them with `--show-unicode`: `<U+0651=0|U+0628=2>`.
    pub fn serialize(&self, flags: SerializeFlags) -> String {
        let mut text = String::new();
        // (writing to a string returns no error)
        let _ = self.write(&mut text, flags);
        text
    }

    fn write(&self, f: &mut String, flags: SerializeFlags) -> fmt::Result {
        f.write_str("<")?;
        for (place, (character, cluster)) in self.characters().enumerate() {
            let between = if place > 0 { "|" } else { "" };
            write!(f, "{between}U+{:04X}", u32::from(character))?;
            if !flags.contains(SerializeFlags::NO_CLUSTERS) {
                write!(f, "={cluster}")?;
            }
        }
        f.write_str(">")
    }

    /// Makes the buffer ready for another text. It keeps cluster level, flags, the glyphs for what the
    /// font lacks, and memory.
    pub fn clear(&mut self) {
        let parts = self.parts_mut();
        parts.glyphs.clear();
        parts.positions.clear();
        parts.buffer.clear();
        parts.buffer.set_direction(Direction::Invalid);
        parts.language = None;
    }
}

impl Default for UnicodeBuffer {
    fn default() -> Self {
        UnicodeBuffer::new()
    }
}

impl fmt::Debug for UnicodeBuffer {
    fn fmt(&self, f: &mut fmt::Formatter<'_>) -> fmt::Result {
        let characters = self.glyphs().map(|glyph| (glyph.glyph_id, glyph.cluster));
        f.debug_struct("UnicodeBuffer")
            .field("direction", &self.direction())
            .field("script", &self.script())
            .field("language", &self.language())
            .field("characters", &DebugList(characters.clone()))
            .finish_non_exhaustive()
    }
}

/// Prints what an iterator yields as a list.
struct DebugList<I>(I);

impl<I: Iterator<Item: fmt::Debug> + Clone> fmt::Debug for DebugList<I> {
    fn fmt(&self, f: &mut fmt::Formatter<'_>) -> fmt::Result {
        f.debug_list().entries(self.0.clone()).finish()
    }
}
