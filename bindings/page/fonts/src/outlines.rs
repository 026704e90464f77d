//! The outlines of glyphs, as paths of SVG.

use super::json::{array, string};
use skrifa::instance::{LocationRef, Size};
use skrifa::outline::{DrawSettings, OutlinePen};
use skrifa::{FontRef, GlyphId, MetadataProvider};
use std::fmt::Write;

/// The path of each of these glyphs, in units of the font, with y downwards. One that has no outline,
/// or can't be read, has an empty path.
pub fn paths(font: &[u8], numbers: &str) -> Option<String> {
    let font = FontRef::from_index(font, 0).ok()?;
    let outlines = font.outline_glyphs();
    let path = |number: &str| {
        let mut path = Path::default();
        let outline = number.parse().ok().and_then(|number| outlines.get(GlyphId::new(number)));
        if let Some(outline) = outline {
            let settings = DrawSettings::unhinted(Size::unscaled(), LocationRef::default());
            if outline.draw(settings, &mut path).is_err() {
                path.0.clear();
            }
        }
        string(&path.0)
    };
    Some(array(numbers.split_whitespace().map(path)))
}

#[derive(Default)]
struct Path(String);

impl Path {
    // Adds a command with its points. Writing to a text can't fail.
    fn add(&mut self, letter: char, points: &[(f32, f32)]) {
        self.0.push(letter);
        for (x, y) in points {
            let _ = write!(self.0, "{x} {} ", -y);
        }
    }
}

impl OutlinePen for Path {
    fn move_to(&mut self, x: f32, y: f32) {
        self.add('M', &[(x, y)]);
    }

    fn line_to(&mut self, x: f32, y: f32) {
        self.add('L', &[(x, y)]);
    }

    fn quad_to(&mut self, x0: f32, y0: f32, x: f32, y: f32) {
        self.add('Q', &[(x0, y0), (x, y)]);
    }

    fn curve_to(&mut self, x0: f32, y0: f32, x1: f32, y1: f32, x: f32, y: f32) {
        self.add('C', &[(x0, y0), (x1, y1), (x, y)]);
    }

    fn close(&mut self) {
        self.add('Z', &[]);
    }
}
