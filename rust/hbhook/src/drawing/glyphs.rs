//! The glyphs of a row as text, which a reader can copy.

use super::escaped::Escaped;
use super::font_glyphs::glyph_name;
use super::row::Row;
use super::shown::Shown;
use std::fmt;

// The most glyphs that are written.
const MOST: usize = 40;

/// The glyphs of a row in its direction, with spaces between them: their characters, those that
/// combine on dotted circles, and numbers where they are no characters.
pub(super) struct Glyphs<'a>(pub(super) &'a Row<'a>);

impl fmt::Display for Glyphs<'_> {
    fn fmt(&self, page: &mut fmt::Formatter<'_>) -> fmt::Result {
        let Glyphs(row) = *self;
        let direction = if row.is_rtl { " dir=\"rtl\"" } else { "" };
        write!(page, "<p class=\"glyphs\"{direction}>")?;
        for (i, glyph) in row.glyphs.iter().take(MOST).enumerate() {
            let space = if i > 0 { " " } else { "" };
            let text = match row.face {
                Some(face) => glyph_name(face, glyph.glyph_id),
                None => Shown::of(glyph, row).text(glyph.glyph_id),
            };
            write!(page, "{space}<bdi>{}</bdi>", Escaped(&text))?;
        }
        if row.glyphs.len() > MOST {
            page.write_str(" \u{2026}")?;
        }
        page.write_str("</p>\n")
    }
}
