// Generated from crates/opentype_layout/src/pair_tables.rt by rust/erase; edit the source.

//! Subtables of pairs, with tables of their glyphs.

use crate::support::prelude::*;

use crate::generated::opentype_face::bytes::{offset16, table_at, u16_at};
use crate::generated::opentype_face::glyph_tables::{PreparedClassDef, PreparedCoverage};
use crate::generated::opentype_face::lookup::{subtable, subtable_count, subtable_type};
use crate::generated::opentype_layout::budget::paid_for;
use crate::support::alloc::Global;

/// How many bytes a table costs beside its places and classes.
const TABLE_COST: usize = 192;

/// The numbers in the header of a subtable of type 2 of GPOS.
#[derive(Clone, Copy, Debug)]
pub struct PairHeader {
    /// Its format.
    pub format: u16,
    /// The format of the first glyph's value.
    pub first_format: u16,
    /// The format of the second one's.
    pub second_format: u16,
    /// How many classes first glyphs have, in format 2.
    pub rows: u16,
    /// How many second ones have.
    pub columns: u16,
}

impl PairHeader {
    /// The header of a subtable.
    ///
    /// <details><summary>Contract</summary>
    ///
    /// # Contract
    ///
    /// ```text
    /// ensures { result ≡ header_in bytes.now }
    /// ```
    ///
    /// - `header_in`: `crates/opentype_layout/specs/PairTables.antt`
    ///
    /// </details>
    #[inline]
    pub fn of(bytes: &[u8]) -> Self {
        PairHeader {
            format: u16_at(bytes, 0),
            first_format: u16_at(bytes, 4),
            second_format: u16_at(bytes, 6),
            rows: u16_at(bytes, 12),
            columns: u16_at(bytes, 14),
        }
    }
}

/// A subtable of type 2 of GPOS, with its header, and with tables of its first glyphs and of the
/// classes of both.
#[derive(Debug)]
pub struct PairTable<'a> {
    bytes: &'a [u8],
    header: PairHeader,
    set: PreparedCoverage<'a>,
    first_classes: PreparedClassDef<'a>,
    second_classes: PreparedClassDef<'a>,
}

impl<'a> PairTable<'a> {
    /// Makes the tables, for which a budget in bytes pays.
    ///
    /// <details><summary>Contract</summary>
    ///
    /// # Contract
    ///
    /// ```text
    /// ensures { result ≡ bytes.now }
    /// ```
    ///
    /// </details>
    pub fn new(alloc: Global, bytes: &'a [u8], budget: &mut usize) -> Self {
        PairTable {
            bytes,
            header: PairHeader::of(bytes),
            set: PreparedCoverage::new(table_at(bytes, offset16(bytes, 2)), alloc, budget),
            first_classes: PreparedClassDef::new(
                table_at(bytes, offset16(bytes, 8)),
                alloc,
                budget,
            ),
            second_classes: PreparedClassDef::new(
                table_at(bytes, offset16(bytes, 10)),
                alloc,
                budget,
            ),
        }
    }

    /// The subtable.
    ///
    /// <details><summary>Contract</summary>
    ///
    /// # Contract
    ///
    /// ```text
    /// ensures { result.now ≡ self.now }
    /// ```
    ///
    /// </details>
    #[inline]
    pub fn bytes(&self) -> &'a [u8] {
        self.bytes
    }

    /// The numbers in its header.
    ///
    /// <details><summary>Contract</summary>
    ///
    /// # Contract
    ///
    /// ```text
    /// ensures { result ≡ header_in self.now }
    /// ```
    ///
    /// - `header_in`: `crates/opentype_layout/specs/PairTables.antt`
    ///
    /// </details>
    #[inline]
    pub fn header(&self) -> PairHeader {
        self.header
    }

    /// The place of a glyph in the set of first glyphs.
    ///
    /// <details><summary>Contract</summary>
    ///
    /// # Contract
    ///
    /// ```text
    /// ensures { result ≡ coverage_in (table_at self.now (u16_in self.now 2)) glyph }
    /// ```
    ///
    /// - `table_at`, `u16_in`: `crates/opentype_face/specs/Bytes.antt`
    /// - `coverage_in`: `crates/opentype_face/specs/Glyphs.antt`
    ///
    /// </details>
    #[inline]
    pub fn place(&self, glyph: u16) -> Option<u32> {
        self.set.place(glyph)
    }

    /// The class of a first glyph, in format 2.
    ///
    /// <details><summary>Contract</summary>
    ///
    /// # Contract
    ///
    /// ```text
    /// ensures { result ≡ class_in (table_at self.now (u16_in self.now 8)) glyph }
    /// ```
    ///
    /// - `table_at`, `u16_in`: `crates/opentype_face/specs/Bytes.antt`
    /// - `class_in`: `crates/opentype_face/specs/Glyphs.antt`
    ///
    /// </details>
    #[inline]
    pub fn first_class(&self, glyph: u16) -> u16 {
        self.first_classes.class(glyph)
    }

    /// The class of a second one.
    ///
    /// <details><summary>Contract</summary>
    ///
    /// # Contract
    ///
    /// ```text
    /// ensures { result ≡ class_in (table_at self.now (u16_in self.now 10)) glyph }
    /// ```
    ///
    /// - `table_at`, `u16_in`: `crates/opentype_face/specs/Bytes.antt`
    /// - `class_in`: `crates/opentype_face/specs/Glyphs.antt`
    ///
    /// </details>
    #[inline]
    pub fn second_class(&self, glyph: u16) -> u16 {
        self.second_classes.class(glyph)
    }
}

/// Tables of a lookup's first subtables; there are none unless its type is 2. Where a budget in bytes
/// or memory doesn't suffice, there are fewer.
pub(crate) fn tables_of_pairs<'a>(
    alloc: Global,
    lookup: &'a [u8],
    budget: &mut usize,
) -> Vec<PairTable<'a>> {
    if subtable_type(9, lookup, 0) != 2 {
        return Vec::new(alloc);
    }
    let count = paid_for(subtable_count(lookup), TABLE_COST, budget);
    let Ok(mut tables) = Vec::with_capacity(alloc, usize::from(count)) else {
        return Vec::new(alloc);
    };
    for i in 0..count {
        if subtable_type(9, lookup, i) != 2 {
            return tables;
        }
        let table = PairTable::new(alloc, subtable(9, lookup, i), budget);
        if tables.push(table).is_err() {
            return tables;
        }
    }
    tables
}
