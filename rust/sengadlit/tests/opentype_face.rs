//! Two small fonts, written out table by table, and what OpenType's specification says of them.
#![cfg(feature = "opentype")]

use sengadlit::alloc::Global;
use sengadlit::opentype_face::character_table::PreparedCharacters;
use sengadlit::opentype_face::characters::Encoding;
use sengadlit::opentype_face::class_table::PreparedClasses;
use sengadlit::opentype_face::classes::{glyph_props, is_in_mark_set};
use sengadlit::opentype_face::directory::{FaceError, face_count};
use sengadlit::opentype_face::face::{Face, parse};
use sengadlit::opentype_face::metrics::{side_bearing, vertical_origin};
use sengadlit::opentype_face::outlines::{box_bottom, box_top, box_width, has_box};

type Table = (&'static [u8; 4], Vec<u8>);

fn words(numbers: &[u16]) -> Vec<u8> {
    numbers.iter().flat_map(|n| n.to_be_bytes()).collect()
}

/// The directory of these tables and the tables, in a file where so many bytes stand before them.
fn face_at(before: usize, magic: &[u8; 4], tables: &[Table]) -> Vec<u8> {
    let mut bytes = magic.to_vec();
    bytes.extend(words(&[u16::try_from(tables.len()).unwrap(), 0, 0, 0]));
    let mut offset = before + 12 + 16 * tables.len();
    for (tag, table) in tables {
        bytes.extend_from_slice(*tag);
        bytes.extend([0; 4]);
        bytes.extend(u32::try_from(offset).unwrap().to_be_bytes());
        bytes.extend(u32::try_from(table.len()).unwrap().to_be_bytes());
        offset += table.len();
    }
    for (_, table) in tables {
        bytes.extend_from_slice(table);
    }
    bytes
}

/// `head` with so many units and a format of `loca`.
fn head(units: u16, format: u16) -> Vec<u8> {
    let mut table = words(&[0; 27]);
    table[18..20].copy_from_slice(&units.to_be_bytes());
    table[50..52].copy_from_slice(&format.to_be_bytes());
    table
}

/// `hhea` or `vhea` with the heights 800, -200 and 90 and so many long metrics.
fn header(long: u16) -> Vec<u8> {
    let mut numbers = [0; 18];
    (numbers[0], numbers[17]) = (1, long);
    (numbers[2], numbers[3], numbers[4]) = (800, 65336, 90);
    words(&numbers)
}

/// Four glyphs: none, A, a mark, A with the mark. Format 4 of 3/1 has their characters; format 14 of
/// 0/5 says that A with FE00 is glyph 3, and that U+0301 with it is as without it.
fn latin() -> Vec<Table> {
    let mut cmap = words(&[0, 2, 0, 5, 0, 20, 3, 1, 0, 58]);
    cmap.extend(words(&[14, 0, 38, 0, 1]));
    cmap.extend([0, 0xFE, 0]);
    cmap.extend(words(&[0, 21, 0, 29, 0, 1]));
    cmap.extend([0, 3, 1, 0]);
    cmap.extend(words(&[0, 1]));
    cmap.extend([0, 0, 0x41, 0, 3]);
    cmap.extend(words(&[
        4, 48, 0, 8, 8, 2, 0, 0x41, 0xC1, 0x301, 0xFFFF, 0, 0x41, 0xC1, 0x301, 0xFFFF,
    ]));
    cmap.extend(words(&[
        1_u16.wrapping_sub(0x41),
        3_u16.wrapping_sub(0xC1),
        2_u16.wrapping_sub(0x301),
        1,
        0,
        0,
        0,
        0,
    ]));
    let mut post = words(&[2, 0, 0, 0, 0, 0, 0, 0, 0, 0, 0, 0, 0, 0, 0, 0]);
    post.extend(words(&[4, 0, 36, 258, 259]));
    post.extend(b"\x04mark\x06A.mark");
    vec![
        (
            b"GDEF",
            words(&[
                1, 2, 14, 0, 0, 24, 32, 1, 1, 2, 1, 3, 1, 2, 1, 7, 1, 1, 0, 8, 1, 1, 2,
            ]),
        ),
        (b"VORG", words(&[1, 0, 880, 1, 2, 900])),
        (b"cmap", cmap),
        (
            b"glyf",
            words(&[1, 5, 65529, 105, 693, 65535, 100, 50, 40, 20]),
        ),
        (b"head", head(1000, 0)),
        (b"hhea", header(2)),
        (b"hmtx", words(&[500, 10, 600, 65516, 30, 40])),
        (b"loca", words(&[0, 0, 5, 10, 10])),
        (b"maxp", words(&[0, 0x5000, 4])),
        (b"post", post),
        (b"vhea", header(1)),
        (b"vmtx", words(&[1000, 50, 60, 70, 80])),
    ]
}

/// Two glyphs, of symbols, and OS/2 of a version and with bits of fsSelection.
fn symbols(version: u16, selection: u16) -> Vec<Table> {
    let mut os2 = [0; 39];
    (os2[0], os2[2], os2[31]) = (version, 400, selection);
    (os2[34], os2[35]) = (750, 65286);
    let cmap = words(&[0, 1, 3, 0, 0, 12, 6, 16, 0, 0xF10C, 2, 1, 0]);
    vec![
        (b"OS/2", words(&os2)),
        (b"cmap", cmap),
        (b"head", head(2048, 0)),
        (b"hhea", header(2)),
        (b"maxp", words(&[0, 0x5000, 2])),
    ]
}

#[test]
fn characters_and_glyphs() {
    let bytes = face_at(0, &[0, 1, 0, 0], &latin());
    assert!(bytes.len() < 1000);
    let face: Face<'_> = parse(&bytes, 0).unwrap();
    assert_eq!((face.units_per_em(), face.glyph_count()), (1000, 4));
    assert_eq!(face.characters.encoding, Encoding::Unicode);
    let glyphs = [0x40, 0x41, 0x42, 0xC1, 0x301, 0xFFFF, 0x1_0041].map(|c| face.nominal_glyph(c));
    assert_eq!(glyphs, [None, Some(1), None, Some(3), Some(2), None, None]);
    // tables of two pages, of one, and of none say the same, and so do those that a budget pays for
    for (most_pages, mut budget) in [(2, 4096), (1, 4096), (0, 4096), (2, 600), (2, 0)] {
        let prepared = PreparedCharacters::new(face.characters, most_pages, Global, &mut budget);
        for c in (0..0x400).chain([0xFFFF, 0x1_0041, 0x1_FFFF, 0x2_0000, u32::MAX]) {
            assert_eq!(
                prepared.table().nominal_glyph(c),
                face.nominal_glyph(c),
                "{c:x}"
            );
        }
    }
    assert_eq!(face.variation_glyph(0x41, 0xFE00), Some(3));
    assert_eq!(face.variation_glyph(0x301, 0xFE00), Some(2));
    assert_eq!(face.variation_glyph(0xC1, 0xFE00), None);
    assert_eq!(face.variation_glyph(0x41, 0xFE01), None);
    assert_eq!(
        [0, 1, 2, 3].map(|glyph| face.glyph_name(glyph)),
        [&b".notdef"[..], b"A", b"mark", b"A.mark"]
    );
    assert_eq!(
        [0, 1, 2, 3].map(|glyph| glyph_props(face.gdef, glyph)),
        [0, 2, 8 + 7 * 256, 0]
    );
    let mut budget = usize::MAX;
    for count in [0, 2, 3, 65535] {
        let prepared = PreparedClasses::new(face.gdef, count, Global, &mut budget);
        for glyph in [0, 1, 2, 3, 65534, 65535] {
            let props = prepared.table().glyph_props(glyph);
            assert_eq!(
                props,
                Some(glyph_props(face.gdef, glyph)),
                "{count}, {glyph}"
            );
        }
    }
    assert_eq!(
        PreparedClasses::new(&[], 4, Global, &mut budget)
            .table()
            .glyph_props(1),
        None
    );
    assert!(
        is_in_mark_set(face.gdef, 0, 2)
            && !is_in_mark_set(face.gdef, 0, 1)
            && !is_in_mark_set(face.gdef, 1, 2)
    );
}

#[test]
fn metrics() {
    let bytes = face_at(0, &[0, 1, 0, 0], &latin());
    let face = parse(&bytes, 0).unwrap();
    assert_eq!((face.ascender(), face.descender()), (800, -200));
    assert_eq!(
        [0, 1, 2, 3, 4].map(|glyph| face.h_advance(glyph)),
        [500, 600, 600, 600, 0]
    );
    let bearings = [0, 1, 2, 3, 4].map(|glyph| side_bearing(face.hhea, face.hmtx, 4, glyph));
    assert_eq!(bearings, [10, -20, 30, 40, 0]);
    assert_eq!(
        [1, 2].map(|glyph| vertical_origin(face.vorg, glyph)),
        [Some(880), Some(900)]
    );
    let boxes = [0, 1, 2, 3].map(|glyph| {
        let outline = face.outline(glyph).unwrap();
        has_box(outline).then(|| (box_top(outline), box_bottom(outline), box_width(outline)))
    });
    assert_eq!(
        boxes,
        [None, Some((693, -7, 100)), Some((50, 20, 60)), None]
    );
    assert_eq!(face.outline(4), None);
    assert_eq!(face.left_side_bearing(1), -20);
    assert_eq!(
        [0, 3, 4].map(|glyph| face.v_advance(glyph)),
        [Some(1000), Some(1000), Some(0)]
    );
}

/// A collection of two faces of symbols: of no page, and of that of Simplified Arabic.
#[test]
fn collection_of_symbols() {
    let mut bytes = b"ttcf".to_vec();
    let first = face_at(20, b"OTTO", &symbols(4, 0x80));
    bytes.extend(words(&[
        1,
        0,
        0,
        2,
        0,
        20,
        0,
        u16::try_from(20 + first.len()).unwrap(),
    ]));
    let second = face_at(20 + first.len(), b"true", &symbols(0, 0xB200));
    bytes.extend(first);
    bytes.extend(second);
    assert!(bytes.len() < 1000);
    assert_eq!(face_count(&bytes), 2);
    let face = parse(&bytes, 0).unwrap();
    assert_eq!(face.characters.encoding, Encoding::Symbol);
    assert_eq!(
        [0xF10C, 0x10C, 0x0C].map(|c| face.nominal_glyph(c)),
        [Some(1), None, None]
    );
    assert_eq!(
        (face.ascender(), face.descender(), face.h_advance(1)),
        (750, -250, 1024)
    );
    let face = parse(&bytes, 1).unwrap();
    assert_eq!(face.characters.encoding, Encoding::SimplifiedArabic);
    assert_eq!(
        [0xF10C, 0x200C, 0x200D].map(|c| face.nominal_glyph(c)),
        [Some(1), Some(1), None]
    );
    assert_eq!(face.v_advance(1), None);
    assert_eq!(parse(&bytes, 2).unwrap_err(), FaceError::IndexOutOfRange);
}

#[test]
fn refusals() {
    let error = |bytes: &[u8], index| parse(bytes, index).unwrap_err();
    assert_eq!(error(b"", 0), FaceError::UnknownMagic);
    assert_eq!(error(b"wOFF", 0), FaceError::UnknownMagic);
    assert_eq!(
        error(b"ttcf\0\x03\0\0\0\0\0\x01\0\0\0\x10", 0),
        FaceError::IndexOutOfRange
    );
    let bytes = face_at(0, b"typ1", &symbols(4, 0));
    assert_eq!(error(&bytes, 1), FaceError::IndexOutOfRange);
    for (tag, missing) in [
        (b"head", FaceError::MissingHead),
        (b"maxp", FaceError::MissingMaxp),
    ] {
        let mut tables = symbols(4, 0);
        tables.retain(|table| table.0 != tag);
        assert_eq!(error(&face_at(0, b"OTTO", &tables), 0), missing);
    }
}

/// Each font cut off anywhere, and each with each byte changed, is read without a panic.
#[test]
fn spoilt_fonts() {
    let whole = face_at(0, &[0, 1, 0, 0], &latin());
    let look = |bytes: &[u8]| {
        if let Ok(face) = parse(bytes, 0) {
            for c in [0, 0x41, 0x301, 0xFFFF, 0x1_0000, u32::MAX] {
                let _ = (face.nominal_glyph(c), face.variation_glyph(c, 0xFE00));
            }
            for glyph in [0, 1, 2, 3, u16::MAX] {
                let _ = (
                    face.h_advance(glyph),
                    face.v_advance(glyph),
                    face.left_side_bearing(glyph),
                );
                let _ = face
                    .outline(glyph)
                    .map(|it| (box_top(it), box_bottom(it), box_width(it)));
                let _ = (face.glyph_name(glyph), glyph_props(face.gdef, glyph));
            }
        }
    };
    for end in 0..whole.len() {
        look(&whole[..end]);
        for byte in [0, 1, 0x7F, 0xFF] {
            let mut bytes = whole.clone();
            bytes[end] = byte;
            look(&bytes);
        }
    }
}
