//! Bytes as characters, and characters as a text that is to be shaped.

use crate::settings::Settings;
use sengadlit::{BufferClusterLevel, BufferFlags, Direction, Script, ShaperError, UnicodeBuffer};

/// The characters of a line with their clusters, and what is set for it.
pub struct Text<'a> {
    pub settings: &'a Settings,
    pub characters: Vec<(char, u32)>,
    pub before: String,
    pub after: String,
    pub flags: BufferFlags,
    pub script: Option<Script>,
    pub direction: Option<Direction>,
}

impl<'a> Text<'a> {
    /// The characters of a line with their clusters: places of bytes, or of characters.
    pub fn of_line(line: &[u8], settings: &'a Settings) -> Self {
        let numbered = characters(line).zip(0..);
        let characters = numbered.map(|((place, character), number)| {
            let place = u32::try_from(place).unwrap_or(u32::MAX);
            let cluster = if settings.has_utf8_clusters {
                place
            } else {
                number
            };
            (character, cluster)
        });
        Text {
            settings,
            characters: characters.collect(),
            before: context(settings.text.before.as_deref()),
            after: context(settings.text.after.as_deref()),
            flags: settings.flags,
            script: settings.script,
            direction: settings.direction,
        }
    }

    /// Fills an empty buffer with the text. Script and direction that aren't set are guessed.
    pub fn fill(&self, buffer: &mut UnicodeBuffer) -> Result<(), ShaperError> {
        buffer.try_reserve(self.characters.len())?;
        for (character, cluster) in &self.characters {
            buffer.try_add(*character, *cluster)?;
        }
        buffer.set_pre_context(&self.before);
        buffer.set_post_context(&self.after);
        buffer.set_flags(self.flags);
        let replacements = &self.settings.replacements;
        buffer.set_invisible_glyph(replacements.invisible);
        buffer.set_not_found_glyph(replacements.not_found);
        buffer.set_not_found_variation_selector_glyph(replacements.not_found_selector);
        if let Some(script) = self.script {
            buffer.set_script(script);
        }
        if let Some(direction) = self.direction {
            buffer.set_direction(direction);
        }
        if let Some(language) = self.settings.language {
            buffer.set_language(language);
        }
        buffer.guess_segment_properties();
        buffer.set_cluster_level(cluster_level(self.settings.cluster_level));
        Ok(())
    }
}

/// What stands before or behind a text.
fn context(bytes: Option<&[u8]>) -> String {
    let characters = characters(bytes.unwrap_or_default());
    characters.map(|(_, character)| character).collect()
}

/// HarfBuzz's cluster level of this number. At level 3, Graphemes, clusters are those of level 2 in
/// HarfBuzz 12.
fn cluster_level(number: u8) -> BufferClusterLevel {
    BufferClusterLevel::from_number(number).unwrap_or(BufferClusterLevel::Characters)
}

/// The characters of UTF-8 with the places of their bytes. Each byte that is part of none is U+FFFD, as
/// in HarfBuzz.
fn characters(bytes: &[u8]) -> impl Iterator<Item = (usize, char)> + '_ {
    let mut start = 0;
    bytes.utf8_chunks().flat_map(move |chunk| {
        let (valid, invalid) = (chunk.valid(), chunk.invalid());
        let place = start;
        start += valid.len() + invalid.len();
        let characters = valid.char_indices().map(move |(at, c)| (place + at, c));
        let first = place + valid.len();
        let replaced = (first..first + invalid.len()).map(|at| (at, char::REPLACEMENT_CHARACTER));
        characters.chain(replaced)
    })
}

#[cfg(test)]
mod tests {
    use super::*;

    #[test]
    fn each_byte_of_no_character_is_replaced() {
        let found: Vec<_> = characters(b"a\xE1\x9E\xE1\x9E\x80\xFF").collect();
        let expected = [
            (0, 'a'),
            (1, '\u{FFFD}'),
            (2, '\u{FFFD}'),
            (3, '\u{1780}'),
            (6, '\u{FFFD}'),
        ];
        assert_eq!(found, expected);
        assert_eq!(characters(b"\xED\xA0\x80").count(), 3);
        assert_eq!(characters(b"").count(), 0);
    }
}
