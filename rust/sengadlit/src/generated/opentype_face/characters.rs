// Generated from crates/opentype_face/src/characters.rt by rust/erase; edit the source.

//! Which subtable of `cmap` a font's characters are looked up in, and how.

use crate::generated::opentype_face::bytes::{capped, low16, offset32, table_at, u16_at};
use crate::generated::opentype_face::cmap::glyph_of;
use crate::generated::opentype_face::legacy_tables::{
    MAC_ROMAN, SIMPLIFIED_ARABIC, TRADITIONAL_ARABIC,
};
use crate::generated::opentype_face::ranges::Ranges;

/// What a subtable's characters are.
#[derive(Clone, Copy, Debug, PartialEq, Eq, Hash)]
pub enum Encoding {
    /// Unicode's.
    Unicode,
    /// Symbols from U+F000 on, which U+0000 to U+00FF reach too.
    Symbol,
    /// Arabic in private use, as fonts of Simplified Arabic have it.
    SimplifiedArabic,
    /// The same, of Traditional Arabic.
    TraditionalArabic,
    /// MacRoman's.
    MacRoman,
    /// Those of another script of the Macintosh, of which ASCII's are known.
    Mac,
}

/// The subtable of `cmap` and what its characters are.
#[derive(Clone, Copy, Debug)]
pub struct Characters<'a> {
    /// The subtable; empty where the font has none.
    pub subtable: &'a [u8],
    /// Its characters.
    pub encoding: Encoding,
}

fn records(cmap: &[u8]) -> u32 {
    if u16_at(cmap, 0) == 0 {
        u32::from(u16_at(cmap, 2))
    } else {
        0
    }
}

fn table_of_record(cmap: &[u8], found: Option<u32>) -> &[u8] {
    match found {
        Some(i) => table_at(cmap, offset32(cmap, 8 + i as usize * 8)),
        None => &[],
    }
}

/// The subtable of a platform's encoding, by 65536 times the one and the other; empty where there is none.
/// It takes 17 steps at most.
///
/// <details><summary>Contract</summary>
///
/// # Contract
///
/// ```text
/// ensures { result.now ≡ subtable_of cmap.now key }
/// ```
///
/// - `subtable_of`: `crates/opentype_face/specs/Characters.antt`
///
/// </details>
pub fn subtable(cmap: &[u8], key: u32) -> &[u8] {
    let ranges = Ranges {
        bytes: cmap,
        first: 4,
        last: 4,
        size: 8,
        count: records(cmap),
    };
    table_of_record(cmap, ranges.find_long(key))
}

fn platform_subtable(cmap: &[u8], platform: u16) -> &[u8] {
    let ranges = Ranges {
        bytes: cmap,
        first: 4,
        last: 4,
        size: 8,
        count: records(cmap),
    };
    table_of_record(cmap, ranges.find(platform))
}

fn or<'a>(table: &'a [u8], other: &'a [u8]) -> &'a [u8] {
    if table.is_empty() { other } else { table }
}

fn unicode_subtable(cmap: &[u8]) -> &[u8] {
    let found = or(subtable(cmap, 1), subtable(cmap, 0));
    let found = or(subtable(cmap, 2), found);
    let found = or(subtable(cmap, 3), found);
    let found = or(subtable(cmap, 0x3_0001), found);
    let found = or(subtable(cmap, 4), found);
    let found = or(subtable(cmap, 6), found);
    or(subtable(cmap, 0x3_000A), found)
}

fn symbol_encoding(page: u16) -> Encoding {
    match page {
        0 => Encoding::Symbol,
        0xB2 => Encoding::SimplifiedArabic,
        0xB3 => Encoding::TraditionalArabic,
        _ => Encoding::Unicode,
    }
}

/// The subtable that HarfBuzz looks characters up in, in a font of a page of OS/2.
///
/// <details><summary>Contract</summary>
///
/// # Contract
///
/// ```text
/// ensures subtable { result.subtable.now ≡ chosen_table cmap.now }
/// ensures encoding { result.encoding ≡ chosen_encoding cmap.now page }
/// ```
///
/// - `chosen_encoding`, `chosen_table`: `crates/opentype_face/specs/Characters.antt`
///
/// </details>
pub fn choose(cmap: &[u8], page: u16) -> Characters<'_> {
    let symbols = subtable(cmap, 0x3_0000);
    if !symbols.is_empty() {
        return Characters {
            subtable: symbols,
            encoding: symbol_encoding(page),
        };
    }
    let unicode = unicode_subtable(cmap);
    if !unicode.is_empty() {
        return Characters {
            subtable: unicode,
            encoding: Encoding::Unicode,
        };
    }
    let roman = subtable(cmap, 0x1_0000);
    if !roman.is_empty() {
        return Characters {
            subtable: roman,
            encoding: Encoding::MacRoman,
        };
    }
    Characters {
        subtable: platform_subtable(cmap, 1),
        encoding: Encoding::Mac,
    }
}

/// The code of a character in a table of records of both.
fn code(table: &[u8], c: u32) -> u32 {
    if c >= 65536 {
        return 0;
    }
    let records = Ranges {
        bytes: table,
        first: 0,
        last: 0,
        size: 4,
        count: capped(65536, table.len() / 4),
    };
    match records.find(low16(c)) {
        Some(i) => u32::from(u16_at(table, 2 + i as usize * 4)),
        None => 0,
    }
}

fn by_code(subtable: &[u8], code: u32) -> Option<u16> {
    if code == 0 {
        return None;
    }
    glyph_of(subtable, code)
}

fn ascii(subtable: &[u8], c: u32) -> Option<u16> {
    if c < 128 { glyph_of(subtable, c) } else { None }
}

impl Characters<'_> {
    /// The glyph of a character, in at most 80 steps.
    ///
    /// <details><summary>Contract</summary>
    ///
    /// # Contract
    ///
    /// ```text
    /// ensures { result ≡ nominal_in self.now.encoding self.now.subtable.now c }
    /// ```
    ///
    /// - `nominal_in`: `crates/opentype_face/specs/Characters.antt`
    ///
    /// </details>
    pub fn nominal_glyph(&self, c: u32) -> Option<u16> {
        let found = if matches!(self.encoding, Encoding::MacRoman | Encoding::Mac) {
            ascii(self.subtable, c)
        } else {
            glyph_of(self.subtable, c)
        };
        if found.is_some() {
            return found;
        }
        match self.encoding {
            Encoding::Symbol if c < 256 => glyph_of(self.subtable, 0xF000 + c),
            Encoding::SimplifiedArabic => by_code(self.subtable, code(&SIMPLIFIED_ARABIC, c)),
            Encoding::TraditionalArabic => by_code(self.subtable, code(&TRADITIONAL_ARABIC, c)),
            Encoding::MacRoman => by_code(self.subtable, code(&MAC_ROMAN, c)),
            _ => None,
        }
    }
}
