//! What the tables of a prepared face take, whatever the font's bytes say.

use crate::allocator::bytes_of;
use crate::common::lookup_font::{font_with_gsub, font_without_gpos, words};
use crate::common::numbers::Numbers;
use sengadlit::Face;

/// How many bytes the tables of a face take at most, unless the font's file has twice as many.
const LEAST_BUDGET: usize = 512 * 1024;

/// How many lookups the fonts have.
const LOOKUPS: u16 = 3_000;

/// A table of lookups that are all one table, of this type and with more subtables than there are
/// bytes: 6,000 bytes that stand for 200 million subtables.
fn lookups(kind: u16) -> Vec<u8> {
    let mut table = words(&[1, 0, 0, 0, 10, LOOKUPS]);
    for _ in 0..LOOKUPS {
        table.extend((2 + 2 * LOOKUPS).to_be_bytes());
    }
    table.extend(words(&[kind, 0, 0xFFFF]));
    table
}

/// The repository's font with up to 40 bytes of its first 2,000 or of all spoilt.
fn spoilt(font: &[u8], numbers: &mut Numbers) -> Vec<u8> {
    let mut bytes = font.to_vec();
    for _ in 0..=numbers.below(40) {
        let end = numbers.one_of(&[2_000, bytes.len()]);
        let spoilt = [0xFF, numbers.byte()];
        bytes[numbers.below(end)] = numbers.one_of(&spoilt);
    }
    bytes
}

fn assert_within_budget(data: &[u8]) {
    if let Ok(mut face) = Face::parse(data, 0) {
        let bytes = bytes_of(|| face.prepare());
        assert!(bytes <= LEAST_BUDGET, "{bytes}");
    }
}

pub fn tables_stay_within_their_budget() {
    for kind in 1..=8 {
        assert_within_budget(&font_with_gsub(lookups(kind)));
    }
    for kind in 1..=9 {
        assert_within_budget(&font_without_gpos(&[(*b"GPOS", lookups(kind))]));
    }
    let font = std::fs::read(concat!(
        env!("CARGO_MANIFEST_DIR"),
        "/../../fonts/sample.ttf"
    ));
    let (font, mut numbers) = (font.unwrap(), Numbers::new(1));
    for _ in 0..1_000 {
        assert_within_budget(&spoilt(&font, &mut numbers));
    }
}
