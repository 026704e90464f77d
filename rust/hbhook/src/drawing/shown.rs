//! How a glyph is shown: as a character, or by its number.

use super::numbers::Numbers;
use super::row::Row;
use sengadlit::unicode::general_category;
use sengadlit::{GeneralCategory, GlyphInfo};

/// What stands in a glyph's box.
#[derive(Clone, Copy)]
pub(super) enum Shown {
    /// The character that the glyph still is.
    Character(char),
    /// A character that combines with the one before it.
    Mark(char),
    /// A character that can't be seen: its number.
    Unseen,
    /// A character of private use: its number.
    Private,
    /// No character, but a glyph of the font: its number.
    Glyph,
}

impl Shown {
    /// What is shown of a glyph. What a lookup put in is no character any more, and neither is a
    /// number that only a glyph of the font has.
    pub(super) fn of(glyph: &GlyphInfo, row: &Row) -> Self {
        if row.face.is_some() {
            return Shown::Glyph;
        }
        Shown::of_number(glyph, row.numbers)
    }

    fn of_number(glyph: &GlyphInfo, numbers: &Numbers) -> Self {
        let marks = glyph.glyph_props;
        let is_new = marks.is_substituted() || marks.is_ligated() || marks.is_multiplied();
        if is_new || numbers.is_of_a_glyph(glyph.glyph_id) {
            return Shown::Glyph;
        }
        char::from_u32(glyph.glyph_id).map_or(Shown::Glyph, Shown::of_character)
    }

    /// The text that shows a glyph of this number: the character, one that combines on a dotted
    /// circle, or the number.
    pub(super) fn text(self, number: u32) -> String {
        match self {
            Shown::Character(character) => character.into(),
            Shown::Mark(character) => format!("\u{25CC}{character}"),
            Shown::Unseen | Shown::Private | Shown::Glyph => format!("{number:04X}"),
        }
    }

    // What is shown of a character: separators, controls, format characters and noncharacters leave no
    // trace of their own.
    fn of_character(character: char) -> Self {
        match general_category(character) {
            GeneralCategory::Mn | GeneralCategory::Mc | GeneralCategory::Me => {
                Shown::Mark(character)
            }
            GeneralCategory::Cc
            | GeneralCategory::Cf
            | GeneralCategory::Zs
            | GeneralCategory::Zl
            | GeneralCategory::Zp => Shown::Unseen,
            GeneralCategory::Cn if is_noncharacter(character) => Shown::Unseen,
            GeneralCategory::Co => Shown::Private,
            _ => Shown::Character(character),
        }
    }
}

// Unicode's 66 noncharacters.
fn is_noncharacter(character: char) -> bool {
    matches!(character, '\u{FDD0}'..='\u{FDEF}') || u32::from(character) & 0xFFFE == 0xFFFE
}

#[cfg(test)]
mod tests {
    use super::*;
    use sengadlit::GlyphProps;

    fn text_of(glyph_id: u32, glyph_props: GlyphProps) -> String {
        let glyph = GlyphInfo {
            glyph_id,
            glyph_props,
            ..GlyphInfo::DEFAULT
        };
        Shown::of_number(&glyph, &Numbers::default()).text(glyph_id)
    }

    #[test]
    fn characters_that_can_be_seen_show_themselves() {
        let shown = |number| text_of(number, GlyphProps::NONE);
        assert_eq!(shown(0x1780), "\u{1780}");
        assert_eq!(shown(0x17C1), "\u{25CC}\u{17C1}");
        for unseen in [0x20, 0xA0, 0x200D, 0x2028, 0xFDD0, 0x1FFFE, 0xF8FF, 0xD800] {
            assert_eq!(shown(unseen), format!("{unseen:04X}"));
        }
        // (unassigned, and no noncharacter)
        assert_eq!(shown(0x0378), "\u{378}");
    }

    #[test]
    fn what_a_lookup_put_in_shows_its_number() {
        assert_eq!(text_of(0x41, GlyphProps::SUBSTITUTED), "0041");
    }
}
