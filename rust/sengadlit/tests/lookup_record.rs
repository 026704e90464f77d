//! The record of a text's lookups, by fonts whose lookups take all operations of a text, or all of its
//! room, or pick alternates at random.
#![cfg(feature = "opentype")]

#[path = "common/lookup_font.rs"]
mod lookup_font;

use lookup_font::{font_with_gsub, words};
use sengadlit::{Face, GlyphBuffer, GlyphInfo, UnicodeBuffer, shape};

/// A table GSUB whose one feature has the first two of these lookups, each of one subtable. The first
/// lookup's bytes are the last ones, since it may be long and offsets have two bytes.
fn gsub(feature: [u8; 4], lookups: &[(u16, Vec<u16>)]) -> Vec<u8> {
    let mut table = words(&[1, 0, 10, 30, 46]);
    table.extend(words(&[1]));
    table.extend(b"DFLT");
    table.extend(words(&[8, 4, 0, 0, 0xFFFF, 1, 0]));
    table.extend(words(&[1]));
    table.extend(feature);
    table.extend(words(&[8, 0, 2, 0, 1]));
    let (mut offsets, mut bodies) = (vec![], vec![]);
    for (kind, subtable) in lookups[1..].iter().chain(&lookups[..1]) {
        offsets.push(2 + 2 * lookups.len() + bodies.len());
        bodies.extend(words(&[*kind, 0, 1, 8]));
        bodies.extend(words(subtable));
    }
    offsets.rotate_right(1);
    for number in [lookups.len()].into_iter().chain(offsets) {
        table.extend(words(&[u16::try_from(number).unwrap()]));
    }
    table.extend(bodies);
    table
}

/// A rule for one glyph, whose records all apply this lookup to the glyph.
fn rule(glyph: u16, records: u16, lookup: u16) -> Vec<u16> {
    let head = [1, 8, 1, 14, 1, 1, glyph, 1, 4, 1, records];
    let records = (0..records).flat_map(|_| [0, lookup]);
    head.into_iter().chain(records).collect()
}

fn shaped(gsub: Vec<u8>, text: &str) -> GlyphBuffer {
    let data = font_with_gsub(gsub);
    let face = Face::parse(&data, 0).unwrap();
    let mut buffer = UnicodeBuffer::new();
    buffer.push_str(text);
    let glyphs = shape(&face, &[], buffer);
    assert!(glyphs.is_complete());
    glyphs
}

/// A's rule applies a lookup so many times, which does nothing there. What is left of the text's 65,536
/// operations is for B's rule, which makes a C of it.
#[test]
fn what_one_lookup_leaves_is_for_the_next_one() {
    let cases = [
        (1, 3, 65_532, true),
        (65_533, 3, 0, true),
        // (the call finds the last operation, and the rule's end none)
        (65_534, 3, 0, false),
        (65_535, 2, 0, false),
    ];
    for (records, glyph, left, is_complete) in cases {
        let single = vec![1, 6, 1, 1, 1, 2];
        let lookups = [(5, rule(1, records, 2)), (5, rule(2, 1, 2)), (1, single)];
        let glyphs = shaped(gsub(*b"liga", &lookups), "AB");
        assert_eq!(glyphs.glyph_infos()[1].glyph_id, glyph, "{records}");
        let record = glyphs.lookup_record();
        assert_eq!(record.operations_left, left, "{records}");
        assert_eq!(record.is_complete, is_complete, "{records}");
    }
}

/// A becomes 65,535 of them, and a text may get 65,536 glyphs.
#[test]
fn glyphs_without_room_are_left_out() {
    for (text, len, is_complete) in [("A", 65_535, true), ("AA", 65_536, false)] {
        let head = [1, 8, 1, 14, 1, 1, 1, u16::MAX];
        let sequence = head.into_iter().chain([1; 65_535]).collect();
        let glyphs = shaped(gsub(*b"liga", &[(2, sequence)]), text);
        assert_eq!(glyphs.len(), len);
        let record = glyphs.lookup_record();
        assert_eq!(record.operations_left, 65_536);
        assert_eq!(record.is_complete, is_complete);
    }
}

/// A has a hundred alternates, the glyphs from 2 on. Of HarfBuzz 6.0.0 these are the picks and the flags.
#[test]
fn alternates_at_random_are_those_of_harfbuzz() {
    let head = [1, 8, 1, 14, 1, 1, 1, 100];
    let alternates = head.into_iter().chain(2..102).collect();
    let glyphs = shaped(gsub(*b"rand", &[(3, alternates)]), "AAAAAAAA");
    let infos = glyphs.glyph_infos();
    let picked: Vec<_> = infos.iter().map(|glyph| glyph.glyph_id).collect();
    assert_eq!(picked, [73, 96, 84, 29, 40, 48, 52, 61]);
    let is_unsafe = |glyph: &GlyphInfo| glyph.mask & 1 == 1;
    assert!(!is_unsafe(&infos[0]) && infos[1..].iter().all(is_unsafe));
    assert_eq!(glyphs.lookup_record().random_state, 205_459_859);
}
