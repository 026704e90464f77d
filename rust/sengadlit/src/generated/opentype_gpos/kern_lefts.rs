// Generated from crates/opentype_gpos/src/kern_lefts.rt by rust/erase; edit the source.

//! From which glyph to which the left ones of pairs are, in a table `kern`: a text that has none of
//! them is left as it is.

use crate::generated::opentype_face::bytes::{table_at, u8_at, u16_at, u32_at};
use crate::generated::opentype_gpos::kern::{is_across, kern};
use crate::generated::opentype_gpos::nearby::number;
use crate::generated::shapers_buffer::buffer::{Buffer, GlyphInfo};

// A table of more subtables isn't looked through, so that no font takes long to prepare.
const MOST_SUBTABLES: u16 = 16;

// Glyphs from the first one to the last; none where the first one is behind the last.
#[derive(Clone, Copy, Debug)]
struct Lefts {
    first: u16,
    last: u16,
}

impl Lefts {
    // These and one more.
    #[inline]
    fn with(self, glyph: u16) -> Self {
        Lefts {
            first: self.first.min(glyph),
            last: self.last.max(glyph),
        }
    }

    #[inline]
    fn has(self, glyph: u16) -> bool {
        self.first <= glyph && glyph <= self.last
    }
}

/// A table `kern`, and from which glyph to which the left ones of its pairs are.
#[derive(Debug)]
pub struct KernLefts<'a> {
    table: &'a [u8],
    lefts: Lefts,
}

impl<'a> KernLefts<'a> {
    /// A table of which nothing is known: each glyph may begin a pair.
    ///
    /// <details><summary>Contract</summary>
    ///
    /// # Contract
    ///
    /// ```text
    /// ensures { result ≡ table.now }
    /// ```
    ///
    /// </details>
    #[inline]
    pub fn of(table: &'a [u8]) -> Self {
        let lefts = Lefts {
            first: 0,
            last: 65535,
        };
        KernLefts { table, lefts }
    }

    /// A table that is looked through once. Nothing is known of one that has a subtable of classes
    /// (format 2), or one that moves glyphs across their line, or more than 16 subtables.
    ///
    /// <details><summary>Contract</summary>
    ///
    /// # Contract
    ///
    /// ```text
    /// ensures { result ≡ table.now }
    /// ```
    ///
    /// </details>
    pub fn new(table: &'a [u8]) -> Self {
        let count = u16_at(table, 2);
        if count > MOST_SUBTABLES {
            return Self::of(table);
        }
        match lefts_of(count, table_at(table, 4)) {
            Some(lefts) => KernLefts { table, lefts },
            None => Self::of(table),
        }
    }

    /// The table.
    ///
    /// <details><summary>Contract</summary>
    ///
    /// # Contract
    ///
    /// ```text
    /// ensures { result.now ≡ self.now }
    /// ```
    ///
    /// </details>
    #[inline]
    pub fn table(&self) -> &'a [u8] {
        self.table
    }
}

// The left glyphs of so many records of pairs, which stand in any order from byte 14 on.
fn with_records(bytes: &[u8], count: u16, known: Lefts) -> Lefts {
    let mut lefts = known;
    for i in 0..count {
        let pair = u32_at(bytes, 14 + usize::from(i) * 6);
        lefts = lefts.with((pair / 65536) as u16);
    }
    lefts
}

// The left glyphs of a subtable, unless it is one of which nothing is known.
fn with_subtable(bytes: &[u8], known: Lefts) -> Option<Lefts> {
    if is_across(bytes) {
        return None;
    }
    match u8_at(bytes, 4) {
        0 => Some(with_records(bytes, u16_at(bytes, 6), known)),
        2 => None,
        _ => Some(known),
    }
}

// The left glyphs of so many subtables, one after another.
fn lefts_of(count: u16, bytes: &[u8]) -> Option<Lefts> {
    let mut lefts = Lefts {
        first: 65535,
        last: 0,
    };
    let mut bytes = bytes;
    for _ in 0..count {
        let len = u16_at(bytes, 2);
        if len < 6 {
            return Some(lefts);
        }
        lefts = with_subtable(bytes, lefts)?;
        bytes = table_at(bytes, usize::from(len));
    }
    Some(lefts)
}

// Whether a text has one of these glyphs.
fn has_left(lefts: Lefts, glyphs: &[GlyphInfo]) -> bool {
    glyphs.iter().any(|glyph| lefts.has(number(glyph)))
}

/// The same as [`kern`](crate::kern::kern) by the table, but that the pairs of a text are looked up only
/// where it has a glyph that may begin one.
///
/// <details><summary>Contract</summary>
///
/// # Contract
///
/// ```text
/// requires { length buffer.old.positions ≡ length buffer.old.glyphs }
/// ensures { buffer.new ≡ kerned lefts.now mask buffer.old }
/// ```
///
/// - `kerned`: `crates/opentype_gpos/specs/Kerned.antt`
///
/// </details>
pub fn kern_by_lefts(lefts: &KernLefts<'_>, mask: u32, buffer: &mut Buffer) {
    if has_left(lefts.lefts, buffer.glyphs()) {
        kern(lefts.table, mask, buffer);
        return;
    }
    let len = buffer.len();
    buffer.unsafe_to_concat(0, len);
}
