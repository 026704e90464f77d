// Generated from crates/hbhook_lines/src/text.rt by rust/erase; edit the source.

//! A text before the font's lookups: what preparing it reads beside what the hooks read, and the
//! call.

use crate::generated::hbhook_commands::{LineFont, LineTables};
use sengadlit::buffer::{Buffer, GeneralCategory, Tag};
use sengadlit::font::{Font, GlyphId, Tables};
use sengadlit::ot_shape::{
    NormalizeFont, NormalizeSettings, NormalizeTables, TextPlan, prepare_text,
};
use sengadlit::ot_shape_normalize::Rounds;
use sengadlit::ot_shape_prepare::UnicodeProperties;
use sengadlit::plan::{Category, JoiningType, Position};
use sengadlit::shaper::checked::CallError;
use sengadlit::unicode::{UnicodeTables, is_default_ignorable, modified_combining_class};

/// Does all that comes before the font's lookups, in a font without forms for selectors, and by
/// what Unicode says of characters where the tables of the lines say nothing.
pub(crate) fn prepare(
    plan: &TextPlan,
    font: &LineFont,
    tables: &LineTables,
    buffer: &mut Buffer,
) -> Result<(), CallError> {
    let settings = NormalizeSettings {
        rounds: Rounds::AsCode,
        invisible_glyph: None,
        draws_selectors: false,
    };
    let (font, tables) = (TextFont { font }, TextTables { tables });
    prepare_text(plan, &settings, &font, &tables, buffer)
}

// A font of which no line gives forms that selectors select.
struct TextFont<'a> {
    font: &'a LineFont,
}

impl<'a> Font for TextFont<'a> {
    fn nominal_glyph(&self, c: u32) -> Option<GlyphId> {
        self.font.nominal_glyph(c)
    }

    fn glyph_h_advance(&self, glyph: GlyphId) -> i32 {
        self.font.glyph_h_advance(glyph)
    }

    fn would_apply(&self, lookup: u16, glyphs: &[GlyphId], zero_context: bool) -> bool {
        self.font.would_apply(lookup, glyphs, zero_context)
    }

    fn has_feature(&self, tag: Tag) -> bool {
        self.font.has_feature(tag)
    }
}

impl<'a> NormalizeFont for TextFont<'a> {
    fn variation_glyph(&self, _c: u32, _selector: u32) -> Option<GlyphId> {
        None
    }
}

// The tables of the lines, over what Unicode has beside.
struct TextTables<'a> {
    tables: &'a LineTables,
}

impl<'a> Tables for TextTables<'a> {
    fn joining_type(&self, c: char) -> JoiningType {
        self.tables.joining_type(c)
    }

    fn general_category(&self, c: char) -> GeneralCategory {
        self.tables.general_category(c)
    }

    fn indic_categories(&self, c: u32) -> (Category, Position) {
        self.tables.indic_categories(c)
    }

    fn use_category(&self, c: u32) -> Category {
        self.tables.use_category(c)
    }

    fn compose(&self, a: char, b: char) -> Option<char> {
        self.tables.compose(a, b)
    }

    fn decompose(&self, ab: char) -> Option<(char, char)> {
        self.tables.decompose(ab)
    }
}

impl<'a> NormalizeTables for TextTables<'a> {
    fn modified_combining_class(&self, c: char) -> u8 {
        modified_combining_class(c)
    }

    fn is_default_ignorable(&self, c: char) -> bool {
        is_default_ignorable(c)
    }
}

impl<'a> UnicodeProperties for TextTables<'a> {
    fn general_category(&self, c: u32) -> GeneralCategory {
        self.tables.general_category(character(c))
    }

    fn modified_combining_class(&self, c: u32) -> u8 {
        modified_combining_class(character(c))
    }

    fn is_default_ignorable(&self, c: u32) -> bool {
        is_default_ignorable(character(c))
    }

    fn is_extended_pictographic(&self, c: u32) -> bool {
        UnicodeTables.is_extended_pictographic(c)
    }

    fn mirrored(&self, c: u32) -> Option<u32> {
        UnicodeTables.mirrored(c)
    }

    fn vertical_form(&self, c: u32) -> Option<u32> {
        UnicodeTables.vertical_form(c)
    }
}

// The character of this number, or U+FFFD where it is none.
fn character(number: u32) -> char {
    char::from_u32(number).unwrap_or(char::REPLACEMENT_CHARACTER)
}
