//! The text of a buffer in one line, as `hb_buffer_serialize` writes it.
use crate::border::faces::Face;
use crate::buffer::{Buffer, Content};
use core::fmt::{self, Write};
use sengadlit::buffer::GlyphInfo;
use sengadlit::opentype::{SerializeFlags, printed};

/// `sengadlit_serialize_format_t`.
#[derive(Clone, Copy, PartialEq, Eq)]
pub enum Format {
    /// As hb-shape prints by default.
    Text,
    /// A list of objects.
    Json,
}

impl Format {
    /// The format of a number, which is a tag as HarfBuzz's.
    pub fn from_number(number: u32) -> Option<Self> {
        match &number.to_be_bytes() {
            b"TEXT" => Some(Format::Text),
            b"JSON" => Some(Format::Json),
            _ => None,
        }
    }
}

/// Writes the text of a buffer: glyphs by the names of the face, or characters.
pub fn write(
    to: &mut impl Write,
    buffer: &Buffer,
    face: Option<&Face>,
    format: Format,
    flags: SerializeFlags,
) -> fmt::Result {
    let glyphs = buffer.text.glyphs();
    let face = face.map(Face::parsed);
    match (buffer.content(), format) {
        (Content::Characters, Format::Text) => write_characters(to, glyphs, flags),
        (Content::Characters, Format::Json) => write_objects(to, glyphs, flags),
        (_, Format::Text) => write!(
            to,
            "{}",
            printed(face, glyphs, buffer.positions_there(), flags)
        ),
        (_, Format::Json) => write!(
            to,
            "{:#}",
            printed(face, glyphs, buffer.positions_there(), flags)
        ),
    }
}

fn write_characters(
    to: &mut impl Write,
    characters: &[GlyphInfo],
    flags: SerializeFlags,
) -> fmt::Result {
    to.write_char('<')?;
    for (place, character) in characters.iter().enumerate() {
        let between = if place == 0 { "" } else { "|" };
        write!(to, "{between}U+{:04X}", character.glyph_id)?;
        if !flags.contains(SerializeFlags::NO_CLUSTERS) {
            write!(to, "={}", character.cluster)?;
        }
    }
    to.write_char('>')
}

fn write_objects(
    to: &mut impl Write,
    characters: &[GlyphInfo],
    flags: SerializeFlags,
) -> fmt::Result {
    to.write_char('[')?;
    for (place, character) in characters.iter().enumerate() {
        let between = if place == 0 { "" } else { "," };
        write!(to, "{between}{{\"u\":{}", character.glyph_id)?;
        if !flags.contains(SerializeFlags::NO_CLUSTERS) {
            write!(to, ",\"cl\":{}", character.cluster)?;
        }
        to.write_char('}')?;
    }
    to.write_char(']')
}

/// Room for a text of C's, which ends with a zero: what has no room is counted, and left out.
pub struct Room<'a> {
    bytes: &'a mut [u8],
    length: usize,
}

impl<'a> Room<'a> {
    /// Room in these bytes; where there are any, the last one written is a zero.
    pub fn new(bytes: &'a mut [u8]) -> Self {
        if let Some(first) = bytes.first_mut() {
            *first = 0;
        }
        Room { bytes, length: 0 }
    }

    /// How long the text is, with what had no room.
    pub fn length(&self) -> usize {
        self.length
    }
}

impl Write for Room<'_> {
    fn write_str(&mut self, more: &str) -> fmt::Result {
        let last = self.bytes.len().saturating_sub(1);
        let start = self.length.min(last);
        let end = (self.length + more.len()).min(last);
        self.length += more.len();
        if start < end {
            self.bytes[start..end].copy_from_slice(&more.as_bytes()[..end - start]);
        }
        if let Some(zero) = self.bytes.get_mut(end) {
            *zero = 0;
        }
        Ok(())
    }
}

#[cfg(test)]
mod tests {
    use super::Room;
    use core::fmt::Write;

    #[test]
    fn what_has_no_room_is_counted() {
        for (room, wanted) in [(0, ""), (1, ""), (3, "ab"), (6, "abcde"), (7, "abcdef")] {
            let mut bytes = [b'?'; 8];
            let mut to = Room::new(&mut bytes[..room]);
            for more in ["abc", "", "de", "f"] {
                to.write_str(more).unwrap();
            }
            assert_eq!(to.length(), 6);
            assert_eq!(&bytes[..wanted.len()], wanted.as_bytes());
            assert_eq!(bytes[wanted.len()], if room == 0 { b'?' } else { 0 });
            assert_eq!(bytes[7], b'?');
        }
    }
}
