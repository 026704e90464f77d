//! Pages of HTML that show what hooks do: for a text, and after each hook, a row of boxes, one per
//! glyph, and positions to scale.

mod boxes;
mod escaped;
mod fault;
mod font_glyphs;
mod glyphs;
mod label;
mod legend;
mod lines;
mod names;
mod numbers;
mod origins;
mod page;
mod pieces;
mod row;
mod scale;
mod shown;

use crate::generated::hbhook_lines::Session;
use boxes::Boxes;
use glyphs::Glyphs;
use page::Note;
use scale::Positions;
use sengadlit::{Direction, Face, GlyphInfo, GlyphPosition, Shaper};

pub(crate) use legend::Legend;
pub use lines::draw_lines;
pub(crate) use numbers::Numbers;
pub(crate) use origins::{Origins, Traced};
pub(crate) use page::{FOOT, HEAD, Head, Line, Text};
pub(crate) use row::Row;

/// The buffer drawn, with lines to its glyphs from where they stood. Where a hook changed the buffer,
/// its glyphs are also there as text.
pub(crate) fn draw_row(
    legend: &mut Legend,
    session: &Session,
    numbers: &Numbers,
    origins: &Origins,
) -> String {
    let row = row_of(session, numbers, origins);
    let width_of = |glyph| session.font().advance(glyph);
    draw(row, legend, &width_of)
}

/// The glyphs of a font file drawn, with their outlines where the font has some.
pub(crate) fn draw_glyphs(
    legend: &mut Legend,
    face: &Face<'_>,
    shaper: Option<Shaper>,
    glyphs: &[GlyphInfo],
    positions: &[GlyphPosition],
    is_rtl: bool,
) -> String {
    let row = Row {
        glyphs,
        positions,
        before: &[],
        origins: &[],
        shaper,
        features: &[],
        numbers: &Numbers::default(),
        face: Some(face),
        is_rtl,
    };
    draw(row, legend, &|glyph| face.glyph_hor_advance(glyph))
}

fn draw(mut row: Row, legend: &mut Legend, width_of: &dyn Fn(u32) -> i32) -> String {
    if row.glyphs.is_empty() {
        return Note("The buffer is empty.").to_string();
    }
    let mut above = String::new();
    if !row.before.is_empty() && row.has_changed() {
        above = Glyphs(&row).to_string();
    } else if !row.origins.is_empty() {
        above = Note("Each glyph stands where it stood.").to_string();
        row.origins = &[];
    }
    legend.add(&row);
    format!("{above}{}{}", Boxes(&row), Positions(&row, width_of))
}

/// The buffer as a row: from left to right, but a text from right to left in that direction, until
/// it has positions: then its glyphs stand in the order of the line.
pub(crate) fn row_of<'a>(
    session: &'a Session,
    numbers: &'a Numbers,
    origins: &'a Origins,
) -> Row<'a> {
    let is_rtl = session.buffer.direction() == Direction::RightToLeft;
    Row {
        glyphs: session.buffer.glyphs(),
        positions: session.buffer.positions(),
        before: &origins.before,
        origins: &origins.places,
        shaper: session.shaper(),
        features: session.features(),
        numbers,
        face: None,
        is_rtl: is_rtl && session.buffer.positions_len() == 0,
    }
}
