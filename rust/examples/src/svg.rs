//! Lines of glyphs as a picture.

use sengadlit::{Face, GlyphInfo, GlyphPosition};
use sengadlit_shape::outline;
use std::collections::BTreeMap;
use std::fmt::Write as _;

/// How large a picture is, in pixels per em.
const PIXELS_PER_EM: i32 = 40;

pub const BLACK: &str = "#000";
pub const RED: &str = "#c33";

/// A picture that lines are drawn into, from the top.
pub struct Drawing<'a> {
    face: &'a Face<'a>,
    ascent: i32,
    line_height: i32,
    units_per_em: i32,
    shapes: BTreeMap<u32, String>,
    placed: String,
    lines: i32,
    width: i32,
}

impl<'a> Drawing<'a> {
    pub fn new(face: &'a Face<'a>) -> Self {
        let units_per_em = i32::from(face.units_per_em());
        Drawing {
            face,
            ascent: face.ascender(),
            line_height: face.ascender() - face.descender(),
            units_per_em,
            shapes: BTreeMap::new(),
            placed: String::new(),
            lines: 0,
            width: 0,
        }
    }

    /// Draws glyphs from `pen` on, in a colour, and returns where the pen is then.
    pub fn glyphs(
        &mut self,
        glyphs: &[(GlyphInfo, GlyphPosition)],
        mut pen: i32,
        colour: &str,
    ) -> i32 {
        let baseline = -(self.lines * self.line_height + self.ascent);
        let _ = writeln!(self.placed, "<g fill=\"{colour}\">");
        for (glyph, position) in glyphs {
            let number = glyph.glyph_id;
            let path = || outline::path(self.face, number).unwrap_or_default();
            let shape = self.shapes.entry(number).or_insert_with(path);
            if !shape.is_empty() {
                let (x, y) = (pen + position.x_offset, baseline + position.y_offset);
                let _ = writeln!(self.placed, r##"<use href="#g{number}" x="{x}" y="{y}"/>"##);
            }
            pen += position.x_advance;
        }
        self.placed += "</g>\n";
        self.width = self.width.max(pen);
        pen
    }

    /// Draws an upright stroke at `x` through the line.
    pub fn caret(&mut self, x: i32) {
        let (top, height) = (-self.lines * self.line_height, -self.line_height);
        let width = self.units_per_em / 40;
        let _ = writeln!(
            self.placed,
            "<path fill=\"{RED}\" d=\"M{x} {top}h{width}v{height}h-{width}z\"/>"
        );
        self.width = self.width.max(x + width);
    }

    /// Goes on with the next line.
    pub fn end_line(&mut self) {
        self.lines += 1;
    }

    /// The picture. Y grows upwards in it, as in a font.
    pub fn finish(self) -> String {
        let height = self.lines * self.line_height;
        let pixels = |units: i32| units * PIXELS_PER_EM / self.units_per_em;
        let mut picture = format!(
            "<svg xmlns=\"http://www.w3.org/2000/svg\" width=\"{}\" height=\"{}\" \
             viewBox=\"0 0 {} {height}\">\n\
             <rect width=\"100%\" height=\"100%\" fill=\"#fff\"/>\n<defs>\n",
            pixels(self.width),
            pixels(height),
            self.width,
        );
        for (number, shape) in self.shapes.iter().filter(|(_, shape)| !shape.is_empty()) {
            let _ = writeln!(picture, r#"<path id="g{number}" d="{shape}"/>"#);
        }
        picture + "</defs>\n<g transform=\"scale(1 -1)\">\n" + &self.placed + "</g>\n</svg>\n"
    }
}
