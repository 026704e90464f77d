//! Fonts for the tests: those of Debian's packages, and the same with other tables.

use std::collections::BTreeMap;

/// The tables of a font, by tag.
pub type Tables = BTreeMap<[u8; 4], Vec<u8>>;

/// A font of the folder that the environment variable `SENGADLIT_FONTS` names.
///
/// # Panics
///
/// Where there is none.
pub fn font(name: &str) -> Vec<u8> {
    let folder = std::env::var("SENGADLIT_FONTS").expect("SENGADLIT_FONTS names the folder of fonts");
    std::fs::read(format!("{folder}/{name}")).unwrap_or_else(|error| panic!("{folder}/{name}: {error}"))
}

fn number(bytes: &[u8]) -> usize {
    bytes.iter().fold(0, |number, byte| number << 8 | usize::from(*byte))
}

/// The tables of a font.
pub fn tables(font: &[u8]) -> Tables {
    let records = font[12..].chunks(16).take(number(&font[4..6]));
    let table = |record: &[u8]| {
        let (start, length) = (number(&record[8..12]), number(&record[12..16]));
        ([record[0], record[1], record[2], record[3]], font[start..start + length].to_vec())
    };
    records.map(table).collect()
}

/// A font of these tables, with the first four bytes of another.
pub fn font_of(tables: &Tables, version: &[u8]) -> Vec<u8> {
    let mut font = version[..4].to_vec();
    font.extend_from_slice(&u16::try_from(tables.len()).expect("fewer tables").to_be_bytes());
    font.extend_from_slice(&[0; 6]);
    let mut start = 12 + 16 * tables.len();
    for (tag, table) in tables {
        font.extend_from_slice(tag);
        for number in [0, start, table.len()] {
            font.extend_from_slice(&u32::try_from(number).expect("a small font").to_be_bytes());
        }
        start += table.len().next_multiple_of(4);
    }
    for table in tables.values() {
        font.extend_from_slice(table);
        font.resize(font.len().next_multiple_of(4), 0);
    }
    font
}

/// The font without a table.
pub fn without(font: &[u8], tag: &[u8; 4]) -> Vec<u8> {
    let mut tables = tables(font);
    tables.remove(tag);
    font_of(&tables, font)
}

/// The font with a table, in place of what it has of the tag.
pub fn with(font: &[u8], tag: &[u8; 4], table: Vec<u8>) -> Vec<u8> {
    let mut tables = tables(font);
    tables.insert(*tag, table);
    font_of(&tables, font)
}

/// Big-endian numbers of two bytes.
pub fn words(numbers: &[u16]) -> Vec<u8> {
    numbers.iter().flat_map(|number| number.to_be_bytes()).collect()
}

/// The font with 100 units of tracking a grapheme, at every size (`trak`, and an empty `STAT`).
pub fn with_tracking(font: &[u8]) -> Vec<u8> {
    let sizes = [1_u16, 0, 100, 0];
    let entry = [0, 0, 256, 36];
    let header = [1, 0, 0, 12, 0, 0, 1, 2, 0, 28];
    let track = words(&[&header[..], &entry, &sizes, &[100, 100]].concat());
    with(&with(font, b"trak", track), b"STAT", words(&[1, 1, 8, 0, 0, 0, 0, 0, 0, 2]))
}

/// A `GSUB` of Malayalam that makes `formed` of virama and RA by `pref`, but drops RA before, by
/// `nukt`.
pub fn pref_without_ra(virama: u16, ra: u16, formed: u16) -> Vec<u8> {
    let tag = |tag: &[u8; 4]| [u16::from_be_bytes([tag[0], tag[1]]), u16::from_be_bytes([tag[2], tag[3]])];
    let header = [1, 0, 10, 32, 58];
    let scripts = [&[1][..], &tag(b"mlm2"), &[8], &[4, 0], &[0, 0xFFFF, 2, 0, 1]].concat();
    let features = [&[2][..], &tag(b"nukt"), &[14], &tag(b"pref"), &[20], &[0, 1, 0], &[0, 1, 1]].concat();
    let dropping = [[2, 0, 1, 8], [1, 8, 1, 14]].concat();
    let dropped = [1, 1, ra, 0];
    let forming = [[4, 0, 1, 8], [1, 8, 1, 14]].concat();
    let ligature = [1, 1, virama, 1, 4, formed, 2, ra];
    let lookups = [&[2, 6, 30][..], &dropping, &dropped, &forming, &ligature].concat();
    words(&[&header[..], &scripts, &features, &lookups].concat())
}
