//! A picture of the lines.

use crate::fault::Fault;
use sengadlit::{Direction, Face, GlyphBuffer, GlyphInfo};
use sengadlit_shape::outline;
use std::fmt::Write as _;
use std::fs::File;
use std::io::Write as _;
use std::path::{Path, PathBuf};

/// A picture of lines, each below or beside the one before.
pub struct Picture {
    file: File,
    path: PathBuf,
    measure: Measure,
    body: String,
    width: f64,
    height: f64,
}

/// How many pixels an em has in a picture.
const PIXELS: f64 = 40.0;

/// How a face is drawn: units by font unit, those of an em, and the heights of lines.
struct Measure {
    em: f64,
    x: f64,
    y: f64,
    ascender: f64,
    descender: f64,
}

impl Measure {
    fn of(face: &Face<'_>, size: Option<(i32, i32)>) -> Self {
        let units = f64::from(face.units_per_em().max(1));
        let (x, y) = size.map_or((1.0, 1.0), |(x, y)| {
            (f64::from(x) / units, f64::from(y) / units)
        });
        Measure {
            em: y * units,
            x,
            y,
            ascender: face.ascender().into(),
            descender: face.descender().into(),
        }
    }
}

impl Picture {
    /// Makes the file of the picture; lines have this size of the font.
    pub fn open(path: &Path, face: &Face<'_>, size: Option<(i32, i32)>) -> Result<Self, Fault> {
        let file = File::create(path).map_err(|error| Fault::file(path, &error))?;
        Ok(Picture {
            file,
            path: path.into(),
            measure: Measure::of(face, size),
            body: String::new(),
            width: 0.0,
            height: 0.0,
        })
    }

    /// Draws a line below the others, or downwards beside them.
    pub fn add_line(&mut self, face: &Face<'_>, glyphs: &GlyphBuffer) {
        let is_vertical = matches!(
            glyphs.direction(),
            Direction::TopToBottom | Direction::BottomToTop
        );
        let ascender = self.measure.ascender;
        let line = ascender - self.measure.descender;
        let (left, top) = if is_vertical {
            (self.width + line / 2.0, 0.0)
        } else {
            (0.0, self.height + ascender)
        };
        let (mut x, mut y) = (left, top);
        for (info, at) in glyphs.glyph_infos().iter().zip(glyphs.glyph_positions()) {
            let place = (x + f64::from(at.x_offset), y - f64::from(at.y_offset));
            self.draw(face, info, at.x_advance, place);
            x += f64::from(at.x_advance);
            y -= f64::from(at.y_advance);
        }
        if is_vertical {
            (self.width, self.height) = (self.width + line, self.height.max(y));
        } else {
            (self.width, self.height) = (self.width.max(x), self.height + line);
        }
    }

    /// Draws a glyph: its outline, or a box as wide as its advance.
    fn draw(&mut self, face: &Face<'_>, info: &GlyphInfo, advance: i32, (x, y): (f64, f64)) {
        let measure = &self.measure;
        // (writing to a string returns no error)
        let _ = match outline::path(face, info.glyph_id) {
            Some(path) if path.is_empty() => Ok(()),
            Some(path) => writeln!(
                self.body,
                "<path transform=\"translate({x} {y}) scale({} {})\" d=\"{path}\"/>",
                measure.x, -measure.y
            ),
            None => writeln!(
                self.body,
                "<rect x=\"{x}\" y=\"{}\" width=\"{}\" height=\"{}\" fill=\"none\" stroke=\"black\" \
                 stroke-width=\"{}\"/>",
                y - measure.ascender,
                advance.max(0),
                measure.ascender - measure.descender,
                measure.ascender / 50.0
            ),
        };
    }

    /// Writes the picture.
    pub fn finish(mut self) -> Result<(), Fault> {
        let (width, height) = (self.width.max(1.0), self.height.max(1.0));
        let pixels = |units: f64| (units * PIXELS / self.measure.em.max(1.0)).ceil();
        let whole = format!(
            "<svg xmlns=\"http://www.w3.org/2000/svg\" width=\"{}\" height=\"{}\" \
             viewBox=\"0 0 {width} {height}\">\n\
             <rect width=\"100%\" height=\"100%\" fill=\"white\"/>\n{}</svg>\n",
            pixels(width),
            pixels(height),
            self.body
        );
        let written = self.file.write_all(whole.as_bytes());
        written.map_err(|error| Fault::Output(format!("{}: {error}", self.path.display())))
    }
}
