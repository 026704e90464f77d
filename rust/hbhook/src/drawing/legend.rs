//! The legend of a page: what is drawn, and what the names in its boxes mean.

use super::boxes::FLAGS;
use super::escaped::Escaped;
use super::names::{Name, feature_meaning};
use super::row::{Row, tag_name};
use sengadlit::{GlyphInfo, Tag};
use std::fmt::{self, Formatter};

// What the glyph flags mean, in the order of their names.
const FLAG_MEANINGS: [&str; 3] = [
    "if a line breaks before the glyph, the text has to be shaped again",
    "if texts are joined before the glyph, they have to be shaped again",
    "a tatweel may be inserted before the glyph",
];

/// What the rows of a page show that its legend explains.
#[derive(Default)]
pub(crate) struct Legend {
    categories: Vec<Name>,
    auxiliaries: Vec<Name>,
    features: Vec<Tag>,
    flags: u32,
    has_rows: bool,
    has_syllables: bool,
    has_lines: bool,
}

impl Legend {
    /// Adds what a row shows.
    pub(super) fn add(&mut self, row: &Row) {
        self.has_rows = true;
        self.flags |= row.glyph_flags();
        self.has_syllables |= row.has_syllables();
        self.has_lines |= !row.origins.is_empty();
        for glyph in row.glyphs {
            self.add_glyph(row, glyph);
        }
    }

    // Adds the names in a glyph's box.
    fn add_glyph(&mut self, row: &Row, glyph: &GlyphInfo) {
        if glyph.category != 0 {
            add_new(&mut self.categories, row.category_name(glyph));
        }
        if glyph.auxiliary != 0 {
            add_new(&mut self.auxiliaries, row.auxiliary_name(glyph));
        }
        let features = row.features.iter();
        for feature in features.filter(|feature| glyph.mask & feature.mask != 0) {
            add_new(&mut self.features, Some(feature.tag));
        }
    }

    // What the parts of a drawing are.
    fn drawn(&self) -> impl Iterator<Item = (&'static str, &'static str)> {
        let drawn = [
            (
                true,
                "box",
                "a glyph: its character with the number, or its number alone",
            ),
            (
                true,
                "cluster",
                "the place in the text that glyphs come from: a bracket and a colour",
            ),
            (
                self.has_syllables,
                "syllable",
                "a line below its glyphs, with a number and what it is",
            ),
            (
                self.has_lines,
                "lines above",
                "from where a glyph stood before the hook; thick where it moved",
            ),
        ];
        let drawn = drawn.into_iter().filter(|(is_drawn, ..)| *is_drawn);
        drawn.map(|(_, name, meaning)| (name, meaning))
    }

    // The glyph flags that some glyph has.
    fn flags(&self) -> impl Iterator<Item = (&'static str, &'static str)> {
        let flags = FLAGS.iter().zip(FLAG_MEANINGS);
        let set = flags.filter(|((flag, _), _)| self.flags & flag != 0);
        set.map(|((_, name), meaning)| (*name, meaning))
    }
}

/// The legend, if the page has rows.
impl fmt::Display for Legend {
    fn fmt(&self, page: &mut Formatter<'_>) -> fmt::Result {
        if !self.has_rows {
            return Ok(());
        }
        page.write_str("<details class=\"legend\" open>\n<summary>Legend</summary>\n<dl>\n")?;
        let names = self.categories.iter().chain(&self.auxiliaries);
        write_entries(page, self.drawn())?;
        write_entries(page, names.map(|name| (name.short, name.meaning)))?;
        for tag in &self.features {
            write_entries(page, [(&*tag_name(*tag), feature_meaning(*tag))])?;
        }
        write_entries(page, self.flags())?;
        page.write_str("</dl>\n</details>\n")
    }
}

// Adds what isn't there.
fn add_new<T: PartialEq>(list: &mut Vec<T>, new: Option<T>) {
    list.extend(new.filter(|new| !list.contains(new)));
}

// Writes names and what they mean.
fn write_entries<'a>(
    page: &mut Formatter<'_>,
    entries: impl IntoIterator<Item = (&'a str, &'a str)>,
) -> fmt::Result {
    for (name, meaning) in entries {
        writeln!(
            page,
            "<dt>{}</dt><dd>{}</dd>",
            Escaped(name),
            Escaped(meaning)
        )?;
    }
    Ok(())
}
