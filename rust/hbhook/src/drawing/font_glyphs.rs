//! The glyphs of a font file: their names and outlines.

use super::label::Place;
use sengadlit::Face;
use sengadlit_shape::outline;
use std::fmt::{self, Formatter};

// How high an em is drawn, in pixels.
const EM: f64 = 28.0;

/// The name of a glyph, or its number.
pub(super) fn glyph_name(face: &Face<'_>, glyph: u32) -> String {
    let name = face.glyph_name(glyph).map(String::from);
    name.unwrap_or_else(|| format!("gid{glyph}"))
}

/// The outline of a glyph, as the data of an SVG path in font units, upwards.
pub(super) struct Outline {
    path: String,
    // Where its middle is, in font units, and how many pixels a unit is.
    middle: f64,
    scale: f64,
}

impl Outline {
    /// The outline of a glyph that has one.
    pub(super) fn of(face: &Face<'_>, glyph: u32) -> Option<Self> {
        let path = outline::path(face, glyph).filter(|path| !path.is_empty())?;
        let extents = face.glyph_extents(glyph)?;
        Some(Outline {
            path,
            middle: f64::from(extents.x_bearing) + f64::from(extents.width) / 2.0,
            scale: EM / f64::from(face.units_per_em().max(1)),
        })
    }

    /// Draws the outline with its middle at a place, on its base line.
    pub(super) fn draw(&self, page: &mut Formatter<'_>, place: Place) -> fmt::Result {
        let Outline {
            path,
            middle,
            scale,
        } = self;
        let (x, y) = (place.x as f64 - middle * scale, place.y);
        writeln!(
            page,
            "<path class=\"outline\" transform=\"translate({x:.2} {y}) scale({scale:.5} -{scale:.5})\" d=\"{path}\"/>"
        )
    }
}
