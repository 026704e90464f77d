//! Which numbers are those of glyphs, and which those of characters.

use std::collections::BTreeSet;

/// The numbers that the lines so far have named.
#[derive(Debug, Default)]
pub(crate) struct Numbers {
    // The glyphs of `font` lines, and the characters of these lines and of texts.
    glyphs: BTreeSet<u32>,
    characters: BTreeSet<u32>,
}

impl Numbers {
    /// Takes in a line that has been carried out: `font U G W` names a character and a glyph.
    pub(crate) fn add_line(&mut self, line: &[u8]) {
        let line = std::str::from_utf8(line).unwrap_or("");
        let fields: Vec<&str> = line.split(' ').collect();
        if let ["font", character, glyph, _] = fields[..] {
            self.characters.extend(u32::from_str_radix(character, 16));
            self.glyphs.extend(glyph.parse::<u32>());
        }
    }

    /// Takes in a character.
    pub(crate) fn add_character(&mut self, character: u32) {
        self.characters.insert(character);
    }

    /// Whether a glyph of the font has the number, and no character.
    pub(super) fn is_of_a_glyph(&self, number: u32) -> bool {
        self.glyphs.contains(&number) && !self.characters.contains(&number)
    }
}

#[cfg(test)]
mod tests {
    use super::*;

    #[test]
    fn a_font_line_names_a_character_and_a_glyph() {
        let mut numbers = Numbers::default();
        numbers.add_line(b"font 1780 77 500");
        numbers.add_line(b"table 1780 1 2");
        numbers.add_line(b"font 61 \xFF 500");
        assert!(numbers.is_of_a_glyph(77));
        assert!(!numbers.is_of_a_glyph(0x1780) && !numbers.is_of_a_glyph(1));
        numbers.add_character(77);
        assert!(!numbers.is_of_a_glyph(77));
    }
}
