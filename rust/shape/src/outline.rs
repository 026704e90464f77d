//! The outlines of glyphs: OpenType's table `glyf`.

use sengadlit::Face;
use std::fmt::Write;

/// How deep glyphs are made of glyphs, and of how many in all: more than in any font.
const MOST_LEVELS: u32 = 8;
const MOST_PARTS: u32 = 256;

/// A point of a contour; one that is off the curve pulls it.
#[derive(Clone, Copy, Debug, PartialEq)]
struct Point {
    x: f64,
    y: f64,
    is_on_curve: bool,
}

/// Where the points of a part of a glyph come.
#[derive(Clone, Copy)]
struct Transform {
    xx: f64,
    yx: f64,
    xy: f64,
    yy: f64,
    dx: f64,
    dy: f64,
}

impl Transform {
    const NONE: Self = Transform {
        xx: 1.0,
        yx: 0.0,
        xy: 0.0,
        yy: 1.0,
        dx: 0.0,
        dy: 0.0,
    };

    fn apply(&self, point: Point) -> Point {
        Point {
            x: self.xx * point.x + self.xy * point.y + self.dx,
            y: self.yx * point.x + self.yy * point.y + self.dy,
            ..point
        }
    }
}

/// The outline of a glyph as the data of an SVG path, in font units, upwards. `None` where the font has no
/// outline of the glyph, or a spoilt one.
pub fn path(face: &Face<'_>, glyph: u32) -> Option<String> {
    let mut reader = GlyphReader {
        face,
        parts_left: MOST_PARTS,
    };
    let contours = reader.contours(glyph, MOST_LEVELS)?;
    let mut path = String::new();
    for contour in &contours {
        draw(contour, &mut path);
    }
    Some(path)
}

/// Draws a closed contour: curves of one control point, with a point of the curve in the middle between two
/// that are off it.
fn draw(contour: &[Point], path: &mut String) {
    let (Some(first), Some(last)) = (contour.first(), contour.last()) else {
        return;
    };
    let start = match (first.is_on_curve, last.is_on_curve) {
        (true, _) => *first,
        (false, true) => *last,
        (false, false) => middle(*first, *last),
    };
    // (writing to a string returns no error)
    let _ = write!(path, "M{} {}", start.x, start.y);
    let mut control: Option<Point> = None;
    for point in contour.iter().chain([&start]).copied() {
        let to = match control {
            Some(before) if !point.is_on_curve => middle(before, point),
            _ => point,
        };
        let _ = match control {
            Some(pull) => write!(path, "Q{} {} {} {}", pull.x, pull.y, to.x, to.y),
            None if point.is_on_curve => write!(path, "L{} {}", to.x, to.y),
            None => Ok(()),
        };
        control = (!point.is_on_curve).then_some(point);
    }
    path.push('Z');
}

fn middle(a: Point, b: Point) -> Point {
    Point {
        x: f64::midpoint(a.x, b.x),
        y: f64::midpoint(a.y, b.y),
        is_on_curve: true,
    }
}

/// Reads glyphs, of a number of parts at most.
struct GlyphReader<'a> {
    face: &'a Face<'a>,
    parts_left: u32,
}

impl GlyphReader<'_> {
    /// The contours of a glyph that is made of glyphs so many levels deep at most.
    fn contours(&mut self, glyph: u32, levels: u32) -> Option<Vec<Vec<Point>>> {
        let mut bytes = Bytes(self.face.glyph_outline(glyph)?);
        if bytes.0.is_empty() {
            return Some(vec![]);
        }
        let count = bytes.i16()?;
        bytes.skip(8)?;
        match usize::try_from(count) {
            Ok(count) => simple_contours(&mut bytes, count),
            Err(_) => self.parts(&mut bytes, levels),
        }
    }

    /// The contours of the parts of a glyph. A part that is too deep, or one too many, is left out.
    fn parts(&mut self, bytes: &mut Bytes<'_>, levels: u32) -> Option<Vec<Vec<Point>>> {
        let mut contours = vec![];
        loop {
            let part = Part::read(bytes)?;
            if levels > 0 && self.parts_left > 0 {
                self.parts_left -= 1;
                let drawn = self.contours(part.glyph, levels - 1)?;
                let moved = drawn.into_iter().map(|contour| {
                    let points = contour.into_iter();
                    points.map(|point| part.transform.apply(point)).collect()
                });
                contours.extend(moved);
            }
            if !part.has_next {
                return Some(contours);
            }
        }
    }
}

/// A part of a glyph.
struct Part {
    glyph: u32,
    transform: Transform,
    has_next: bool,
}

impl Part {
    fn read(bytes: &mut Bytes<'_>) -> Option<Self> {
        let flags = bytes.u16()?;
        let glyph = bytes.u16()?.into();
        let has = |flag| flags & flag != 0;
        let offset = if has(0x01) {
            (f64::from(bytes.i16()?), f64::from(bytes.i16()?))
        } else {
            (f64::from(bytes.i8()?), f64::from(bytes.i8()?))
        };
        let mut transform = Transform::NONE;
        if has(0x08) {
            transform.xx = bytes.fraction()?;
            transform.yy = transform.xx;
        } else if has(0x40) {
            (transform.xx, transform.yy) = (bytes.fraction()?, bytes.fraction()?);
        } else if has(0x80) {
            (transform.xx, transform.yx) = (bytes.fraction()?, bytes.fraction()?);
            (transform.xy, transform.yy) = (bytes.fraction()?, bytes.fraction()?);
        }
        // (else the two numbers are points that come upon each other, which hinted fonts alone use)
        if has(0x02) {
            (transform.dx, transform.dy) = offset;
        }
        Some(Part {
            glyph,
            transform,
            has_next: has(0x20),
        })
    }
}

/// The contours of a glyph that is made of no others.
fn simple_contours(bytes: &mut Bytes<'_>, count: usize) -> Option<Vec<Vec<Point>>> {
    let ends: Vec<u16> = (0..count).map(|_| bytes.u16()).collect::<Option<_>>()?;
    let point_count = ends.last().map_or(0, |last| usize::from(*last) + 1);
    let instructions = bytes.u16()?;
    bytes.skip(instructions.into())?;
    let flags = flags(bytes, point_count)?;
    let xs = coordinates(bytes, &flags, 0x02, 0x10)?;
    let ys = coordinates(bytes, &flags, 0x04, 0x20)?;
    let points = flags
        .iter()
        .zip(xs.iter().zip(&ys))
        .map(|(flag, (x, y))| Point {
            x: f64::from(*x),
            y: f64::from(*y),
            is_on_curve: flag & 1 != 0,
        });
    let points: Vec<Point> = points.collect();
    let mut start = 0;
    let contours = ends.iter().map(|end| {
        let end = usize::from(*end) + 1;
        let contour = points.get(start..end).map(<[Point]>::to_vec);
        start = end;
        contour
    });
    contours.collect()
}

/// The flags of points, of which one may stand for several.
fn flags(bytes: &mut Bytes<'_>, count: usize) -> Option<Vec<u8>> {
    let mut flags = vec![];
    while flags.len() < count {
        let flag = bytes.u8()?;
        let times = if flag & 8 == 0 { 0 } else { bytes.u8()? };
        flags.extend((0..=times).map(|_| flag));
    }
    flags.truncate(count);
    Some(flags)
}

/// The coordinates of points, each from the one before: a byte, whose sign is the second flag, or two bytes,
/// or with that flag none.
fn coordinates(bytes: &mut Bytes<'_>, flags: &[u8], short: u8, same: u8) -> Option<Vec<i32>> {
    let mut at = 0;
    let places = flags.iter().map(|flag| {
        at += match (flag & short != 0, flag & same != 0) {
            (true, true) => i32::from(bytes.u8()?),
            (true, false) => -i32::from(bytes.u8()?),
            (false, true) => 0,
            (false, false) => i32::from(bytes.i16()?),
        };
        Some(at)
    });
    places.collect()
}

/// Bytes that are still to be read.
struct Bytes<'a>(&'a [u8]);

impl Bytes<'_> {
    fn skip(&mut self, count: usize) -> Option<()> {
        self.0 = self.0.get(count..)?;
        Some(())
    }

    fn take<const N: usize>(&mut self) -> Option<[u8; N]> {
        let (taken, rest) = self.0.split_first_chunk()?;
        self.0 = rest;
        Some(*taken)
    }

    fn u8(&mut self) -> Option<u8> {
        self.take().map(u8::from_be_bytes)
    }

    fn i8(&mut self) -> Option<i8> {
        self.take().map(i8::from_be_bytes)
    }

    fn u16(&mut self) -> Option<u16> {
        self.take().map(u16::from_be_bytes)
    }

    fn i16(&mut self) -> Option<i16> {
        self.take().map(i16::from_be_bytes)
    }

    /// A number with 14 bits behind the point.
    fn fraction(&mut self) -> Option<f64> {
        Some(f64::from(self.i16()?) / 16384.0)
    }
}

#[cfg(test)]
mod tests {
    use super::*;

    fn point(x: f64, y: f64, is_on_curve: bool) -> Point {
        Point { x, y, is_on_curve }
    }

    #[test]
    fn curves_have_points_between_their_controls() {
        let mut path = String::new();
        draw(
            &[
                point(0.0, 0.0, true),
                point(10.0, 0.0, false),
                point(10.0, 10.0, false),
                point(0.0, 10.0, true),
            ],
            &mut path,
        );
        assert_eq!(path, "M0 0L0 0Q10 0 10 5Q10 10 0 10L0 0Z");
        path.clear();
        let circle = [(0.0, 0.0), (4.0, 0.0), (4.0, 4.0), (0.0, 4.0)];
        draw(&circle.map(|(x, y)| point(x, y, false)), &mut path);
        assert_eq!(path, "M0 2Q0 0 2 0Q4 0 4 2Q4 4 2 4Q0 4 0 2Z");
        path.clear();
        draw(&[], &mut path);
        assert_eq!(path, "");
    }

    // (a triangle: flags 1 of three points, then words; OpenType's description of glyf)
    #[test]
    fn contours_of_a_glyph() {
        let bytes = [
            0, 2, 0, 0, 0x01, 0x33, 0x37, 0, 5, 10, 0xFF, 0xFE, 7, // x: 5, 15, 15; y: -2, 5, 5
        ];
        let contours = simple_contours(&mut Bytes(&bytes), 1);
        assert_eq!(contours, None);
        let bytes = [0, 2, 0, 0, 0x01, 0x31, 0x33, 0, 5, 10, 0xFF, 0xFE];
        let expected = [(5.0, -2.0), (5.0, -2.0), (15.0, -2.0)];
        let expected = expected.map(|(x, y)| point(x, y, true)).to_vec();
        let contours = simple_contours(&mut Bytes(&bytes), 1);
        assert_eq!(contours, Some(vec![expected]));
    }
}
