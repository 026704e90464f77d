//! A font beside what HarfBuzz says of it.

use sengadlit::opentype_face::bytes::u16_at;
use sengadlit::opentype_face::characters::Encoding;
use sengadlit::opentype_face::classes::glyph_props;
use sengadlit::opentype_face::directory::face_count;
use sengadlit::opentype_face::face::{Face, parse};
use sengadlit::opentype_face::outlines::{box_bottom, box_top, box_width, has_box};
use std::fmt::Debug;
use std::fs;
use std::io::{self, BufReader, Read};

const NONE: u32 = u32::MAX;
const CHARACTERS: u32 = 0x11_0000;
/// How many differences of a font are printed.
const SHOWN: usize = 10;

/// The words that the program of HarfBuzz writes.
struct Told<R> {
    input: R,
}

impl<R: Read> Told<R> {
    fn word(&mut self) -> io::Result<u32> {
        let mut bytes = [0; 4];
        self.input.read_exact(&mut bytes)?;
        Ok(u32::from_ne_bytes(bytes))
    }

    fn number(&mut self) -> io::Result<i32> {
        Ok(self.word()? as i32)
    }

    fn glyph(&mut self) -> io::Result<Option<u32>> {
        Ok(Some(self.word()?).filter(|&glyph| glyph != NONE))
    }

    fn text(&mut self) -> io::Result<Vec<u8>> {
        let length = self.word()? as usize;
        let mut bytes = vec![0; length.next_multiple_of(4)];
        self.input.read_exact(&mut bytes)?;
        bytes.truncate(length);
        Ok(bytes)
    }
}

/// How much was compared, and what differs.
#[derive(Default)]
struct Differences {
    compared: u64,
    differ: usize,
}

impl Differences {
    fn compare<T: PartialEq + Debug>(&mut self, what: impl Fn() -> String, own: T, told: T) {
        self.compared += 1;
        if own != told {
            self.differ += 1;
            if self.differ <= SHOWN {
                println!("    {}: {own:?}, in HarfBuzz {told:?}", what());
            }
        }
    }
}

/// Compares a font; prints what differs, and how much was compared. Returns whether nothing differs.
pub fn compare(path: &str, index: u32) -> io::Result<bool> {
    let bytes = fs::read(path)?;
    let mut told = Told {
        input: BufReader::with_capacity(1 << 20, io::stdin().lock()),
    };
    let version = [told.word()?, told.word()?, told.word()?].map(|number| number.to_string());
    let mut all = Differences::default();
    all.compare(|| "faces".into(), face_count(&bytes), told.word()?);
    let face = parse(&bytes, index).map_err(|error| io::Error::other(format!("{error}")))?;
    compare_face(&face, &mut told, &mut all)?;
    println!(
        "{path} {index}, {}HarfBuzz {}: {} compared, {} differ",
        kinds_of(&face, face_count(&bytes)),
        version.join("."),
        all.compared,
        all.differ
    );
    Ok(all.differ == 0)
}

/// What a font is an example of, each kind with a comma behind it.
fn kinds_of(face: &Face<'_>, faces: u32) -> String {
    let format = u16_at(face.characters.subtable, 0);
    let mut kinds = format!("cmap {format}, {:?}, ", face.characters.encoding);
    for (has, kind) in [
        (!face.selectors.is_empty(), "cmap 14, "),
        (!face.glyf.is_empty(), "glyf, "),
        (face.glyf.is_empty(), "no glyf, "),
        (!face.vmtx.is_empty(), "vmtx, "),
        (!face.vorg.is_empty(), "VORG, "),
        (faces > 1, "collection, "),
    ] {
        kinds += if has { kind } else { "" };
    }
    kinds
}

fn compare_face<R: Read>(
    face: &Face<'_>,
    told: &mut Told<R>,
    all: &mut Differences,
) -> io::Result<()> {
    let units = u32::from(face.units_per_em());
    all.compare(|| "units of an em".into(), units, told.word()?);
    let glyphs = u32::from(face.glyph_count());
    all.compare(|| "glyphs".into(), glyphs, told.word()?);
    all.compare(|| "ascender".into(), face.ascender(), told.number()?);
    all.compare(|| "descender".into(), face.descender(), told.number()?);
    for c in 0..CHARACTERS {
        let own = face.nominal_glyph(c).map(u32::from);
        let told = told.glyph()?;
        if told.is_some() && is_taken_for_another(face, c) {
            let other = face.nominal_glyph(c % 0x1_0000).map(u32::from);
            all.compare(
                || format!("the glyph of {c:04X}"),
                (None, other),
                (own, told),
            );
        } else {
            all.compare(|| format!("the glyph of {c:04X}"), own, told);
        }
    }
    compare_selectors(face, told, all)?;
    compare_glyphs(face, told, all)
}

/// HarfBuzz looks for the last 16 bits of a character in MacRoman: a known difference (docs/DIFFERENCES.md).
fn is_taken_for_another(face: &Face<'_>, c: u32) -> bool {
    face.characters.encoding == Encoding::MacRoman && c >= 0x1_0000
}

/// HarfBuzz takes an advance of 32,768 units and more for one below 0: a known difference.
fn as_in_harfbuzz(advance: i32) -> i32 {
    i32::from(advance as i16)
}

fn compare_selectors<R: Read>(
    face: &Face<'_>,
    told: &mut Told<R>,
    all: &mut Differences,
) -> io::Result<()> {
    while let Some(selector) = told.glyph()? {
        let apart = told.word()? as usize;
        for c in (0..CHARACTERS).step_by(apart) {
            let own = face.variation_glyph(c, selector).map(u32::from);
            let what = || format!("the glyph of {c:04X} {selector:04X}");
            all.compare(what, own, told.glyph()?);
        }
    }
    Ok(())
}

fn compare_glyphs<R: Read>(
    face: &Face<'_>,
    told: &mut Told<R>,
    all: &mut Differences,
) -> io::Result<()> {
    let [boxes, origins, names] = [told.word()?, told.word()?, told.word()?].map(|word| word != 0);
    while let Some(number) = told.glyph()? {
        let glyph = u16::try_from(number).map_err(io::Error::other)?;
        let what = |kind: &'static str| move || format!("the {kind} of glyph {glyph}");
        let advance = as_in_harfbuzz(i32::from(face.h_advance(glyph)));
        all.compare(what("advance"), advance, told.number()?);
        let down = vertical_advance(face, glyph);
        all.compare(what("vertical advance"), down, told.number()?);
        let (across, height) = (told.number()?, told.number()?);
        all.compare(what("place of the vertical origin"), advance / 2, across);
        if origins {
            let own = face.v_origin(glyph);
            all.compare(what("height of the vertical origin"), own, height);
        }
        // (components of ligatures have no class here: no lookup asks for them)
        let class = Some(told.word()?).filter(|&class| class < 4).unwrap_or(0);
        all.compare(what("class"), class_of(face, glyph), class);
        if boxes {
            let (is_there, sides) = (told.word()? != 0, four(told)?);
            let told_box = is_there.then_some(sides);
            all.compare(what("box"), box_of(face, glyph), told_box);
        }
        if names {
            let told_name = told.text()?;
            all.compare(what("name"), face.glyph_name(glyph), &told_name[..]);
        }
    }
    Ok(())
}

fn four<R: Read>(told: &mut Told<R>) -> io::Result<[i32; 4]> {
    Ok([
        told.number()?,
        told.number()?,
        told.number()?,
        told.number()?,
    ])
}

/// As shaping has it (opentype_font): a line's height where the font has no vertical advances.
fn vertical_advance(face: &Face<'_>, glyph: u16) -> i32 {
    match face.v_advance(glyph) {
        Some(advance) => as_in_harfbuzz(-i32::from(advance)),
        None => face.descender() - face.ascender(),
    }
}

/// GDEF's class, of a base, a ligature or a mark; 0 for others.
fn class_of(face: &Face<'_>, glyph: u16) -> u32 {
    match glyph_props(face.gdef, glyph) & 0xE {
        2 => 1,
        4 => 2,
        8 => 3,
        _ => 0,
    }
}

/// The left and the top of a glyph's box, its width, and its height as a number of at most 0.
fn box_of(face: &Face<'_>, glyph: u16) -> Option<[i32; 4]> {
    let outline = face.outline(glyph)?;
    if !has_box(outline) {
        return Some([0; 4]);
    }
    let (top, bottom) = (i32::from(box_top(outline)), i32::from(box_bottom(outline)));
    let left = i32::from(face.left_side_bearing(glyph));
    Some([left, top, i32::from(box_width(outline)), bottom - top])
}
