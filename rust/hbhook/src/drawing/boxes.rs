//! Boxes, one per glyph: pieces of a row as drawings that the page lets wrap.

use super::font_glyphs::{Outline, glyph_name};
use super::label::{Place, Style};
use super::names::{BROKEN, kind_name};
use super::pieces::{Piece, pieces_of};
use super::row::{GLYPH_FLAGS, Row};
use super::shown::Shown;
use sengadlit::buffer::GlyphInfo;
use std::fmt::{self, Formatter};

// From the left edge of one box to that of the next.
const PITCH: usize = 68;

// A box: its left edge, its width, its middle, the room that texts have in it, and the width of the
// bar at the edge of one with glyph flags.
const LEFT: usize = 3;

const WIDTH: usize = 62;

const MIDDLE: usize = 34;

const ROOM: usize = 58;

const BAR: usize = 5;

// How high the parts of a drawing are: the glyphs before the hook with their lines, the brackets of
// clusters, what each box has, a detail of a box, a glyph flag, and syllables.
const BEFORE: usize = 92;

const BRACKET: usize = 24;

const FACE: usize = 72;

const DETAIL: usize = 15;

const FLAG: usize = 20;

const SYLLABLE: usize = 44;

// How many colours clusters have.
const COLOURS: u32 = 6;

// The glyph flags with their names.
pub(super) const FLAGS: [(u32, &str); 3] = [(1, "no break"), (2, "no concat"), (4, "tatweel")];

// How high the drawings of a row are, how far down their parts begin, the flags in a box counted
// from its top, and which glyph flags the row has.
#[derive(Clone, Copy)]
struct Layout {
    brackets: usize,
    boxes: usize,
    flags: usize,
    syllables: usize,
    all: usize,
    shown_flags: u32,
    has_syllables: bool,
}

impl Layout {
    fn of(row: &Row) -> Self {
        let brackets = if row.origins.is_empty() { 0 } else { BEFORE };
        let boxes = brackets + BRACKET;
        let flags = FACE + row.most_details() * DETAIL;
        let shown_flags = row.glyph_flags();
        let syllables = boxes + flags + height_of_flags(shown_flags);
        let has_syllables = row.has_syllables();
        let below = if has_syllables { SYLLABLE } else { 4 };
        Layout {
            brackets,
            boxes,
            flags,
            syllables,
            all: syllables + below,
            shown_flags,
            has_syllables,
        }
    }

    fn of_a_box(&self) -> usize {
        self.syllables - self.boxes
    }
}

// How high the flags of a box are, where the row has these.
fn height_of_flags(shown: u32) -> usize {
    let of_the_row = FLAGS.iter().filter(|(flag, _)| shown & flag != 0);
    of_the_row.count() * FLAG
}

// The columns of a piece, one per glyph, in the direction of the row.
#[derive(Clone, Copy)]
struct Columns {
    count: usize,
    is_rtl: bool,
}

impl Columns {
    // How wide the columns are together.
    fn width(self) -> usize {
        self.count * PITCH
    }

    // Where the column of a place begins.
    fn left(self, place: usize) -> usize {
        let column = if self.is_rtl {
            self.count - 1 - place
        } else {
            place
        };
        column * PITCH
    }

    // The middle of the column of a place.
    fn middle(self, place: usize) -> usize {
        self.left(place) + MIDDLE
    }

    // The boxes from `start` to `end`, as far down as `y`.
    fn stretch(self, y: usize, start: usize, end: usize) -> Stretch {
        let (first, last) = if self.is_rtl {
            (end - 1, start)
        } else {
            (start, end - 1)
        };
        Stretch {
            y,
            left: self.left(first) + LEFT,
            right: self.left(last) + LEFT + WIDTH,
        }
    }
}

/// The boxes of a row, drawn.
pub(super) struct Boxes<'a>(pub(super) &'a Row<'a>);

impl fmt::Display for Boxes<'_> {
    fn fmt(&self, page: &mut Formatter<'_>) -> fmt::Result {
        let Boxes(row) = *self;
        let layout = Layout::of(row);
        let class = if row.is_rtl { "row rtl" } else { "row" };
        writeln!(page, "<div class=\"{class}\">")?;
        for piece in pieces_of(row) {
            draw_piece(page, row, &layout, &piece)?;
        }
        page.write_str("</div>\n")
    }
}

// Draws a piece of a row.
fn draw_piece(page: &mut Formatter<'_>, row: &Row, layout: &Layout, piece: &Piece) -> fmt::Result {
    let glyphs = &row.glyphs[piece.glyphs.clone()];
    let before = row.before.get(piece.before.clone()).unwrap_or(&[]);
    let columns = Columns {
        count: glyphs.len().max(before.len()),
        is_rtl: row.is_rtl,
    };
    open_drawing(page, columns.width(), layout.all)?;
    if let Some(origins) = row.origins.get(piece.glyphs.clone()) {
        draw_before(page, row, columns, before)?;
        draw_lines(page, columns, piece, glyphs, origins)?;
    }
    draw_brackets(page, columns, layout.brackets, glyphs)?;
    for (i, glyph) in glyphs.iter().enumerate() {
        draw_box(page, row, layout, columns.left(i), glyph)?;
    }
    if layout.has_syllables {
        draw_syllables(page, row, columns, layout.syllables, glyphs)?;
    }
    page.write_str("</svg>\n")
}

/// Begins a drawing.
pub(super) fn open_drawing(page: &mut Formatter<'_>, width: usize, height: usize) -> fmt::Result {
    writeln!(
        page,
        "<svg width=\"{width}\" height=\"{height}\" viewBox=\"0 0 {width} {height}\">"
    )
}

/// The class that gives a cluster its colour.
pub(super) fn colour(cluster: u32) -> u32 {
    cluster % COLOURS
}

// Draws small what stood there before the hook.
fn draw_before(
    page: &mut Formatter<'_>,
    row: &Row,
    columns: Columns,
    before: &[GlyphInfo],
) -> fmt::Result {
    for (i, glyph) in before.iter().enumerate() {
        let place = Place {
            x: columns.middle(i),
            y: 24,
            room: WIDTH,
            style: Style::Old,
        };
        draw_shown(page, row, glyph, place)?;
    }
    Ok(())
}

// Draws a glyph: its character, one that combines on a dotted circle, its outline, or its number.
fn draw_shown(page: &mut Formatter<'_>, row: &Row, glyph: &GlyphInfo, place: Place) -> fmt::Result {
    if let Some(outline) = row.face.and_then(|face| Outline::of(face, glyph.glyph_id)) {
        return outline.draw(page, place);
    }
    let shown = Shown::of(glyph, row);
    let style = match shown {
        Shown::Character(_) | Shown::Mark(_) => place.style,
        Shown::Unseen | Shown::Private | Shown::Glyph => Style::Id,
    };
    Place { style, ..place }.draw(page, &shown.text(glyph.glyph_id))
}

// Draws a line to each glyph of a piece from where it stood before; where that is in another piece,
// the number of the place.
fn draw_lines(
    page: &mut Formatter<'_>,
    columns: Columns,
    piece: &Piece,
    glyphs: &[GlyphInfo],
    origins: &[usize],
) -> fmt::Result {
    for (i, (glyph, origin)) in glyphs.iter().zip(origins).enumerate() {
        if piece.before.contains(origin) {
            let from = columns.middle(origin - piece.before.start);
            draw_line(page, glyph.cluster, from, columns.middle(i))?;
        } else {
            let place = Place {
                x: columns.middle(i),
                y: 80,
                room: WIDTH,
                style: Style::Small,
            };
            place.draw(page, &format!("from {origin}"))?;
        }
    }
    Ok(())
}

// Draws a line from a glyph before the hook to one after it; a thick one, where the glyph moved.
fn draw_line(page: &mut Formatter<'_>, cluster: u32, from: usize, to: usize) -> fmt::Result {
    let class = if from == to { "stayed" } else { "moved" };
    let colour = colour(cluster);
    writeln!(
        page,
        "<path class=\"{class} k{colour}\" d=\"M{from} 38C{from} 62 {to} 62 {to} 88\"/>"
    )
}

// Draws a bracket with its number over the glyphs of each cluster.
fn draw_brackets(
    page: &mut Formatter<'_>,
    columns: Columns,
    y: usize,
    glyphs: &[GlyphInfo],
) -> fmt::Result {
    let mut start = 0;
    for run in glyphs.chunk_by(|a, b| a.cluster == b.cluster) {
        let end = start + run.len();
        draw_bracket(page, run[0].cluster, columns.stretch(y, start, end))?;
        start = end;
    }
    Ok(())
}

// Neighbouring boxes, from the left edge to the right one, and how far down what belongs to them is
// drawn.
#[derive(Clone, Copy)]
struct Stretch {
    y: usize,
    left: usize,
    right: usize,
}

impl Stretch {
    // Draws a label in the middle.
    fn draw_label(self, page: &mut Formatter<'_>, down: usize, text: &str) -> fmt::Result {
        let place = Place {
            x: self.left.midpoint(self.right),
            y: self.y + down,
            room: self.right - self.left,
            style: Style::Small,
        };
        place.draw(page, text)
    }
}

// Draws the bracket of a cluster over its boxes.
fn draw_bracket(page: &mut Formatter<'_>, cluster: u32, stretch: Stretch) -> fmt::Result {
    let (left, right, colour) = (stretch.left, stretch.right, colour(cluster));
    let (top, foot) = (stretch.y + 16, stretch.y + 22);
    writeln!(
        page,
        "<path class=\"bracket k{colour}\" d=\"M{left} {foot}V{top}H{right}V{foot}\"/>"
    )?;
    let text = format!("cluster {cluster}");
    stretch.draw_label(page, 11, &text)
}

// Draws the box of a glyph.
fn draw_box(
    page: &mut Formatter<'_>,
    row: &Row,
    layout: &Layout,
    x: usize,
    glyph: &GlyphInfo,
) -> fmt::Result {
    let (y, height, colour) = (layout.boxes, layout.of_a_box(), colour(glyph.cluster));
    writeln!(page, "<g transform=\"translate({x} {y})\">")?;
    writeln!(
        page,
        "<rect class=\"box k{colour}\" x=\"{LEFT}\" width=\"{WIDTH}\" height=\"{height}\" rx=\"3\"/>"
    )?;
    draw_face(page, row, glyph)?;
    draw_details(page, row, glyph)?;
    draw_flags(page, row, layout, glyph)?;
    page.write_str("</g>\n")
}

// Draws the glyph flags of a glyph: their names below the details, and a bar at the edge of its box
// where the text before it is.
fn draw_flags(
    page: &mut Formatter<'_>,
    row: &Row,
    layout: &Layout,
    glyph: &GlyphInfo,
) -> fmt::Result {
    if glyph.mask & GLYPH_FLAGS == 0 {
        return Ok(());
    }
    let x = if row.is_rtl { LEFT + WIDTH - BAR } else { LEFT };
    let height = layout.of_a_box();
    writeln!(
        page,
        "<rect class=\"flag\" x=\"{x}\" width=\"{BAR}\" height=\"{height}\"/>"
    )?;
    let mut y = layout.flags;
    for (flag, name) in FLAGS {
        if glyph.mask & flag != 0 {
            writeln!(
                page,
                "<rect class=\"flag\" x=\"{LEFT}\" y=\"{y}\" width=\"{WIDTH}\" height=\"18\"/>"
            )?;
            let place = Place {
                x: MIDDLE,
                y: y + 13,
                room: ROOM,
                style: Style::Flag,
            };
            place.draw(page, name)?;
        }
        if layout.shown_flags & flag != 0 {
            y += FLAG;
        }
    }
    Ok(())
}

// Draws a glyph in its box, with its number below the character that it is.
fn draw_face(page: &mut Formatter<'_>, row: &Row, glyph: &GlyphInfo) -> fmt::Result {
    let place = Place {
        x: MIDDLE,
        y: 38,
        room: ROOM,
        style: Style::Now,
    };
    draw_shown(page, row, glyph, place)?;
    let text = match (Shown::of(glyph, row), row.face) {
        (_, Some(face)) => &*glyph_name(face, glyph.glyph_id),
        (Shown::Character(_) | Shown::Mark(_), None) => &*format!("{:04X}", glyph.glyph_id),
        (Shown::Unseen, None) => "unseen",
        (Shown::Private, None) => "private",
        (Shown::Glyph, None) => "glyph",
    };
    Place {
        y: 62,
        style: Style::Number,
        ..place
    }
    .draw(page, text)
}

// Draws category, masks and the like below the number.
fn draw_details(page: &mut Formatter<'_>, row: &Row, glyph: &GlyphInfo) -> fmt::Result {
    let mut place = Place {
        x: MIDDLE,
        y: FACE + DETAIL - 6,
        room: ROOM,
        style: Style::Small,
    };
    for detail in row.details(glyph) {
        place.style = detail.style;
        place.draw(page, &detail.text)?;
        place.y += DETAIL;
    }
    Ok(())
}

// Underlines the boxes of each syllable, and writes its serial and its kind.
fn draw_syllables(
    page: &mut Formatter<'_>,
    row: &Row,
    columns: Columns,
    y: usize,
    glyphs: &[GlyphInfo],
) -> fmt::Result {
    let mut start = 0;
    for run in glyphs.chunk_by(|a, b| a.syllable == b.syllable) {
        let end = start + run.len();
        draw_syllable(page, row, run[0].syllable, columns.stretch(y, start, end))?;
        start = end;
    }
    Ok(())
}

// Underlines a syllable; a broken one by a line with gaps.
fn draw_syllable(
    page: &mut Formatter<'_>,
    row: &Row,
    syllable: u8,
    stretch: Stretch,
) -> fmt::Result {
    if syllable == 0 {
        return Ok(());
    }
    let (serial, kind) = (syllable >> 4, syllable & 15);
    let name = row.shaper.and_then(|shaper| kind_name(shaper, kind));
    let is_broken = name == Some(BROKEN);
    let class = if is_broken { "broken" } else { "syllable" };
    let (left, right) = (stretch.left, stretch.right);
    let line = stretch.y + 8;
    writeln!(
        page,
        "<path class=\"{class}\" d=\"M{left} {line}H{right}\"/>"
    )?;
    stretch.draw_label(page, 22, &format!("syllable {serial}"))?;
    match name {
        Some(name) => stretch.draw_label(page, 35, name),
        None => stretch.draw_label(page, 35, &format!("kind {kind}")),
    }
}
