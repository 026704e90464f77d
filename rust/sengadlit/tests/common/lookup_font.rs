//! A small font with lookups: its glyphs are .notdef, A, B, C and a ligature of A and B, with kerning
//! between that and C.
#![allow(dead_code, reason = "each test uses a part")]

/// Numbers of two bytes.
pub fn words(numbers: &[u16]) -> Vec<u8> {
    numbers
        .iter()
        .flat_map(|number| number.to_be_bytes())
        .collect()
}

/// A table of lookups with one script, `DFLT`, one feature and one lookup of one subtable.
fn layout(feature: [u8; 4], kind: u16, subtable: &[u8]) -> Vec<u8> {
    let mut table = words(&[1, 0, 10, 30, 44]);
    // scripts: DFLT, whose default language has feature 0
    table.extend(words(&[1]));
    table.extend(b"DFLT");
    table.extend(words(&[8, 4, 0, 0, 0xFFFF, 1, 0]));
    // features: one, with lookup 0
    table.extend(words(&[1]));
    table.extend(feature);
    table.extend(words(&[8, 0, 1, 0]));
    // lookups
    table.extend(words(&[1, 4, kind, 0, 1, 8]));
    table.extend(subtable);
    table
}

/// The bytes of the font.
pub fn font() -> Vec<u8> {
    font_with(&[])
}

type Table = ([u8; 4], Vec<u8>);

/// The font with more tables.
pub fn font_with(more: &[Table]) -> Vec<u8> {
    font_of([&tables()[..], more].concat())
}

/// The font with these tables in place of GPOS.
pub fn font_without_gpos(more: &[Table]) -> Vec<u8> {
    font_of([&tables()[1..], more].concat())
}

/// The font with this table in place of its GSUB.
pub fn font_with_gsub(gsub: Vec<u8>) -> Vec<u8> {
    let mut tables = tables();
    tables[1].1 = gsub;
    font_of(tables)
}

/// The tables of the font; GPOS is the first, and GSUB the second.
fn tables() -> Vec<Table> {
    let mut head = vec![0; 54];
    head[18..20].copy_from_slice(&1000_u16.to_be_bytes());
    let mut hhea = vec![0; 36];
    hhea[1] = 1;
    hhea[4..8].copy_from_slice(&words(&[800, 65_336]));
    hhea[34..].copy_from_slice(&5_u16.to_be_bytes());
    let cmap = [
        words(&[0, 1, 3, 10, 0, 12]),
        words(&[12, 0, 0, 28, 0, 0, 0, 1, 0, 0x41, 0, 0x43, 0, 1]),
    ];
    // format 1, its glyphs begin with A; the ligature 4 of A and B
    let ligatures = words(&[1, 8, 1, 14, 1, 1, 1, 1, 4, 4, 2, 2]);
    // format 1 of pairs: the ligature and C stand 50 units nearer
    let kerning = words(&[1, 12, 4, 0, 1, 18, 1, 1, 4, 1, 3, 0xFFCE]);
    vec![
        (*b"GPOS", layout(*b"kern", 2, &kerning)),
        (*b"GSUB", layout(*b"liga", 4, &ligatures)),
        (*b"cmap", cmap.concat()),
        (*b"head", head),
        (*b"hhea", hhea),
        (*b"hmtx", words(&[500, 0, 600, 0, 650, 0, 700, 0, 1100, 0])),
        (*b"maxp", words(&[0, 0x5000, 5])),
    ]
}

/// The bytes of a font with these tables.
fn font_of(tables: Vec<Table>) -> Vec<u8> {
    let count = tables.len();
    let mut directory = words(&[1, 0, u16::try_from(count).unwrap(), 0, 0, 0]);
    let mut bytes = vec![];
    for (tag, table) in tables {
        let offset = 12 + 16 * count + bytes.len();
        directory.extend(tag);
        for number in [0, offset, table.len()] {
            directory.extend(u32::try_from(number).unwrap().to_be_bytes());
        }
        bytes.extend(table);
        bytes.resize(bytes.len().next_multiple_of(4), 0);
    }
    directory.extend(bytes);
    directory
}
