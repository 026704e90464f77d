//! Positions, drawn to scale: glyphs as wide as their advances, where their offsets put them.

use super::boxes::{colour, open_drawing};
use super::label::{Place, Style};
use super::row::Row;
use std::fmt::{self, Formatter};

// How wide the narrowest glyph of a row is drawn, and how wide the widest at most.
const NARROWEST: u64 = 48;

const WIDEST: u64 = 320;

// The most glyphs of a drawing.
const LONGEST: usize = 200;

// How high a storey is and a box on it, what is left at both ends, and how high what is below is.
const STOREY: usize = 46;

const BOX: usize = 42;

const MARGIN: usize = 4;

const BELOW: usize = 24;

// The narrowest box that has texts.
const READABLE: usize = 20;

// A glyph on the line: from where to where.
#[derive(Clone, Copy)]
struct Extent {
    left: i64,
    right: i64,
    glyph_id: u32,
    cluster: u32,
    x_advance: i32,
    x_offset: i32,
}

impl Extent {
    fn width(&self) -> u64 {
        self.right.abs_diff(self.left)
    }
}

// So many pixels for so many units of the font.
#[derive(Clone, Copy)]
struct Scale {
    pixels: u64,
    units: u64,
}

impl Scale {
    // The scale of a row.
    fn of(extents: &[Extent]) -> Self {
        let widths = extents.iter().map(|extent| extent.width());
        let narrowest = widths.filter(|width| *width != 0).min().unwrap_or(1);
        let widths = extents.iter().map(|extent| extent.width());
        let widest = widths.max().unwrap_or(1);
        if widest.saturating_mul(NARROWEST) <= narrowest.saturating_mul(WIDEST) {
            Scale {
                pixels: NARROWEST,
                units: narrowest,
            }
        } else {
            Scale {
                pixels: WIDEST,
                units: widest,
            }
        }
    }

    // The pixels from one place to another.
    fn between(self, from: i64, to: i64) -> usize {
        let pixels = to.abs_diff(from).saturating_mul(self.pixels);
        usize::try_from(pixels.checked_div(self.units).unwrap_or(0)).unwrap_or(usize::MAX)
    }
}

/// The positions of a row drawn to scale, if it has some. A glyph without an advance is as wide as the
/// font says.
pub(super) struct Positions<'a>(pub(super) &'a Row<'a>, pub(super) &'a dyn Fn(u32) -> i32);

impl fmt::Display for Positions<'_> {
    fn fmt(&self, page: &mut Formatter<'_>) -> fmt::Result {
        let Positions(row, width_of) = *self;
        if row.positions.is_empty() {
            return Ok(());
        }
        let extents = extents_of(row, width_of);
        let scale = Scale::of(&extents);
        page.write_str("<p class=\"note\">To scale, with advances and offsets</p>\n")?;
        page.write_str("<div class=\"row\">\n")?;
        for group in groups_of(&extents) {
            draw_group(page, scale, group)?;
        }
        page.write_str("</div>\n")
    }
}

// The offsets of a row's glyphs along the line.
fn extents_of(row: &Row, width_of: &dyn Fn(u32) -> i32) -> Vec<Extent> {
    let mut pen = 0i64;
    let glyphs = row.glyphs.iter().zip(row.positions);
    let extents = glyphs.map(|(glyph, position)| {
        let advance = i64::from(position.x_advance);
        let width = match advance {
            0 => i64::from(width_of(glyph.glyph_id)),
            advance => advance,
        };
        let start = pen.saturating_add(i64::from(position.x_offset));
        let end = start.saturating_add(width);
        pen = pen.saturating_add(advance);
        Extent {
            left: start.min(end),
            right: start.max(end),
            glyph_id: glyph.glyph_id,
            cluster: glyph.cluster,
            x_advance: position.x_advance,
            x_offset: position.x_offset,
        }
    });
    extents.collect()
}

// The groups of glyphs that stand apart: no glyph of one reaches into another, and one without an
// advance stays with the one before it.
fn groups_of(extents: &[Extent]) -> Vec<&[Extent]> {
    let least = least_lefts(extents);
    let mut groups = Vec::new();
    let mut start = 0;
    let mut greatest = i64::MIN;
    for (i, (extent, least)) in extents.iter().zip(least).enumerate() {
        let is_apart = greatest <= least && extent.x_advance != 0;
        if i > start && (is_apart || i - start >= LONGEST) {
            groups.push(&extents[start..i]);
            start = i;
        }
        greatest = greatest.max(extent.right);
    }
    if start < extents.len() {
        groups.push(&extents[start..]);
    }
    groups
}

// For each glyph the leftmost place that it or a later one has.
fn least_lefts(extents: &[Extent]) -> Vec<i64> {
    let mut least = i64::MAX;
    let backwards = extents.iter().rev().map(|extent| {
        least = least.min(extent.left);
        least
    });
    let mut lefts: Vec<i64> = backwards.collect();
    lefts.reverse();
    lefts
}

// Draws the glyphs of a group, and below how wide they are together.
fn draw_group(page: &mut Formatter<'_>, scale: Scale, extents: &[Extent]) -> fmt::Result {
    let storeys = storeys_of(extents);
    let top = storeys.iter().copied().max().unwrap_or(0);
    let left = extents.iter().map(|extent| extent.left).min().unwrap_or(0);
    let right = extents.iter().map(|extent| extent.right).max().unwrap_or(0);
    let (floor, width) = ((top + 1) * STOREY, scale.between(left, right));
    open_drawing(page, width.saturating_add(2 * MARGIN), floor + BELOW)?;
    for (extent, storey) in extents.iter().zip(storeys) {
        let frame = Frame {
            x: MARGIN.saturating_add(scale.between(left, extent.left)),
            y: (top - storey) * STOREY + 1,
            width: scale.between(extent.left, extent.right),
        };
        draw_extent(page, extent, frame)?;
    }
    let below = Frame {
        x: MARGIN,
        y: floor,
        width,
    };
    draw_width(page, right.abs_diff(left), below)?;
    page.write_str("</svg>\n")
}

// The storey of each glyph of a group: the lowest for one with an advance, and for any other the
// first one above where nothing is in its way.
fn storeys_of(extents: &[Extent]) -> Vec<usize> {
    let mut ends: Vec<i64> = Vec::new();
    let storeys = extents.iter().map(|extent| {
        if extent.x_advance != 0 {
            return 0;
        }
        let free = ends.iter().position(|end| *end <= extent.left);
        let storey = free.unwrap_or_else(|| {
            ends.push(0);
            ends.len() - 1
        });
        ends[storey] = extent.right;
        storey + 1
    });
    storeys.collect()
}

// A place on the page, and a width from there.
#[derive(Clone, Copy)]
struct Frame {
    x: usize,
    y: usize,
    width: usize,
}

impl Frame {
    // Draws a text in the middle, if there is room for one.
    fn draw_label(
        self,
        page: &mut Formatter<'_>,
        style: Style,
        down: usize,
        text: &str,
    ) -> fmt::Result {
        if self.width < READABLE {
            return Ok(());
        }
        let place = Place {
            x: self.x.saturating_add(self.width / 2),
            y: self.y.saturating_add(down),
            room: self.width.saturating_sub(4),
            style,
        };
        place.draw(page, text)
    }
}

// Draws a glyph: its number, and its advance, or its offset where it has none.
fn draw_extent(page: &mut Formatter<'_>, extent: &Extent, frame: Frame) -> fmt::Result {
    let (Frame { x, y, width }, colour) = (frame, colour(extent.cluster));
    writeln!(
        page,
        "<rect class=\"box k{colour}\" x=\"{x}\" y=\"{y}\" width=\"{width}\" height=\"{BOX}\"/>"
    )?;
    let number = format!("{:04X}", extent.glyph_id);
    frame.draw_label(page, Style::Number, 17, &number)?;
    let moved = match (extent.x_advance, extent.x_offset) {
        (0, offset) => format!("{offset:+}"),
        (advance, 0) => format!("{advance}"),
        (advance, offset) => format!("{advance} {offset:+}"),
    };
    frame.draw_label(page, Style::Small, 33, &moved)
}

// Draws how wide a group is.
fn draw_width(page: &mut Formatter<'_>, units: u64, frame: Frame) -> fmt::Result {
    let (left, top) = (frame.x, frame.y);
    let (right, middle, foot) = (left.saturating_add(frame.width), top + 4, top + 8);
    writeln!(
        page,
        "<path class=\"measure\" d=\"M{left} {top}V{foot}M{left} {middle}H{right}M{right} {top}V{foot}\"/>"
    )?;
    frame.draw_label(page, Style::Small, 20, &units.to_string())
}
