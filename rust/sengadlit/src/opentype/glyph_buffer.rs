//! A text that has been shaped.

use super::serialize::Serialized;
use super::unicode_buffer::TextParts;
use super::{Face, SerializeFlags, UnicodeBuffer};
use crate::buffer::{Direction, GlyphInfo, GlyphPosition, LookupRecord, ShaperError};
use crate::editing::{ShapedRun, Stretch, TextEdit};
use core::fmt::Write;
use rust_alloc::string::{String, ToString};

/// A text that has been shaped: its glyphs, each with its position, in the order in which they are
/// drawn from left to right, or from top to bottom.
#[derive(Debug)]
pub struct GlyphBuffer {
    pub(super) text: UnicodeBuffer,
    pub(super) is_complete: bool,
}

impl GlyphBuffer {
    /// What became of a text.
    pub(super) fn new(text: UnicodeBuffer, is_complete: bool) -> Self {
        GlyphBuffer { text, is_complete }
    }

    /// What became of the text.
    #[inline]
    fn parts(&self) -> &TextParts {
        self.text.parts()
    }

    /// How many glyphs the text has.
    pub fn len(&self) -> usize {
        self.parts().glyphs.len()
    }

    /// Whether the text has no glyphs.
    pub fn is_empty(&self) -> bool {
        self.len() == 0
    }

    /// Whether all was done. Where memory was refused, or the text grew beyond 256 times its length,
    /// there are no glyphs. What a font's lookups leave undone is in
    /// [`lookup_record`](Self::lookup_record).
    pub fn is_complete(&self) -> bool {
        self.is_complete
    }

    /// What the font's lookups left of the text's operations. The record isn't complete if a rule found
    /// no operation left, or if glyphs that a lookup adds had no room: a hostile font may do so. Behind
    /// [`reshape`](Self::reshape) it is the record of what was shaped again, and complete if that of the
    /// old text was, too.
    pub fn lookup_record(&self) -> LookupRecord {
        self.parts().buffer.lookup_record()
    }

    /// The glyphs: numbers, clusters, and flags for line breakers (`mask & FLAGS`).
    pub fn glyph_infos(&self) -> &[GlyphInfo] {
        &self.parts().glyphs
    }

    /// The position of each glyph, in font units or those of [`Face::with_scale`].
    pub fn glyph_positions(&self) -> &[GlyphPosition] {
        &self.parts().positions
    }

    /// The direction in which the text was shaped.
    pub fn direction(&self) -> Direction {
        self.parts().buffer.direction()
    }

    /// The glyphs and positions with the direction, as the module [`editing`](crate::editing) takes them.
    pub fn run(&self) -> ShapedRun<'_> {
        ShapedRun {
            glyphs: self.glyph_infos(),
            positions: self.glyph_positions(),
            direction: self.direction(),
        }
    }

    /// Puts the glyphs of a stretch of the edited text in the place of the old ones, as
    /// [`Buffer::splice`](crate::Buffer::splice) does.
    ///
    /// # Errors
    ///
    /// [`ShaperError::Memory`] and [`ShaperError::TooLong`]; the glyphs are as they were then.
    ///
    /// # Panics
    ///
    /// If the stretch isn't one of these glyphs.
    pub fn splice(
        &mut self,
        stretch: &Stretch,
        edit: TextEdit,
        piece: &GlyphBuffer,
    ) -> Result<(), ShaperError> {
        let piece = piece.run();
        self.text
            .parts_mut()
            .in_buffer(|buffer, _| buffer.splice_run(stretch, edit, piece))?
    }

    /// The glyphs in one line, as hb-shape prints them: `[gid3=0+563|gid9=1@10,0+0]`.
    pub fn serialize(&self, face: &Face<'_>, flags: SerializeFlags) -> String {
        self.serialized(face, flags).to_string()
    }

    /// The glyphs in one line, as hb-shape prints them with `--output-format=json`.
    pub fn serialize_json(&self, face: &Face<'_>, flags: SerializeFlags) -> String {
        let mut text = String::new();
        // (writing to a string returns no error)
        let _ = write!(text, "{:#}", self.serialized(face, flags));
        text
    }

    fn serialized<'a>(&'a self, face: &'a Face<'a>, flags: SerializeFlags) -> Serialized<'a> {
        Serialized {
            infos: self.glyph_infos(),
            positions: self.glyph_positions(),
            face: Some(face),
            flags,
        }
    }

    /// The buffer for another text. It keeps cluster level, flags, the glyphs for what the font lacks,
    /// and memory.
    pub fn clear(mut self) -> UnicodeBuffer {
        self.text.clear();
        self.text
    }
}
