// Generated from crates/opentype_layout/src/tables.rt by rust/erase; edit the source.

//! GSUB or GPOS, with the bits of its lookups.

use crate::support::prelude::*;

use crate::generated::opentype_face::bytes::{offset16, table_at, u16_at};
use crate::generated::opentype_face::lookup::lookup;
use crate::generated::opentype_layout::budget::paid_for;
use crate::generated::opentype_layout::lookup_rows::{LookupBits, lookup_rows, rows_of};
use crate::generated::opentype_layout::starts::{LookupTable, Starts};
use crate::generated::opentype_layout::subtable_tables::SubtableTables;
use crate::generated::shapers_buffer::buffer::GlyphInfo;
use crate::support::alloc::Global;

/// How many bytes a lookup's bits cost beside the bits themselves.
const STARTS_COST: usize = 112;

/// How many bytes the tables of a lookup's subtables cost beside these.
const TABLES_COST: usize = 96;

/// How many lookups there are.
pub(crate) fn lookup_count(bytes: &[u8]) -> u16 {
    u16_at(table_at(bytes, offset16(bytes, 8)), 0)
}

// The bits of each lookup.
fn lookup_starts<'a>(
    alloc: Global,
    of_gpos: bool,
    bytes: &'a [u8],
    budget: &mut usize,
) -> Vec<Starts<'a>> {
    let count = paid_for(lookup_count(bytes), STARTS_COST, budget);
    let Ok(mut starts) = Vec::with_capacity(alloc, usize::from(count)) else {
        return Vec::new(alloc);
    };
    for index in 0..count {
        let table = Starts::new(alloc, of_gpos, lookup(bytes, index), budget);
        if starts.push(table).is_err() {
            return starts;
        }
    }
    starts
}

// The tables of the subtables of each lookup.
fn lookup_tables<'a>(
    alloc: Global,
    of_gpos: bool,
    bytes: &'a [u8],
    budget: &mut usize,
) -> Vec<SubtableTables<'a>> {
    let count = paid_for(lookup_count(bytes), TABLES_COST, budget);
    let Ok(mut tables) = Vec::with_capacity(alloc, usize::from(count)) else {
        return Vec::new(alloc);
    };
    for index in 0..count {
        let table = SubtableTables::new(alloc, of_gpos, lookup(bytes, index), budget);
        if tables.push(table).is_err() {
            return tables;
        }
    }
    tables
}

/// A table with the bits of its lookups.
#[derive(Debug)]
pub struct PreparedTable<'a> {
    bytes: &'a [u8],
    starts: Vec<Starts<'a>>,
    tables: Vec<SubtableTables<'a>>,
    of_gpos: bool,
    rows: Option<Vec<u64>>,
}

impl<'a> PreparedTable<'a> {
    /// GSUB or GPOS. Lookups for which memory or a budget in bytes doesn't suffice have no bits,
    /// and their subtables no tables; the table has rows of bits by glyph where both suffice and
    /// all lookups have bits.
    ///
    /// <details><summary>Contract</summary>
    ///
    /// # Contract
    ///
    /// ```text
    /// ensures { result ≡ bytes.now }
    /// ```
    ///
    /// </details>
    pub fn new(alloc: Global, of_gpos: bool, bytes: &'a [u8], budget: &mut usize) -> Self {
        let starts = lookup_starts(alloc, of_gpos, bytes, budget);
        let rows = lookup_rows(alloc, of_gpos, bytes, &starts, budget);
        // (last, since bits save more than these do)
        let tables = lookup_tables(alloc, of_gpos, bytes, budget);
        PreparedTable {
            bytes,
            starts,
            tables,
            of_gpos,
            rows,
        }
    }

    /// A view of it.
    ///
    /// <details><summary>Contract</summary>
    ///
    /// # Contract
    ///
    /// ```text
    /// ensures { result ≡ self.now }
    /// ```
    ///
    /// </details>
    #[inline]
    pub fn table(&self) -> LayoutTable<'_> {
        LayoutTable {
            bytes: self.bytes,
            starts: self.starts.as_slice(),
            tables: self.tables.as_slice(),
            of_gpos: self.of_gpos,
            rows: match &self.rows {
                Some(rows) => Some(rows.as_slice()),
                None => None,
            },
        }
    }
}

/// GSUB or GPOS, with the bits of its lookups, if it has them.
#[derive(Debug)]
pub struct LayoutTable<'a> {
    bytes: &'a [u8],
    starts: &'a [Starts<'a>],
    tables: &'a [SubtableTables<'a>],
    of_gpos: bool,
    rows: Option<&'a [u64]>,
}

impl<'a> LayoutTable<'a> {
    /// A table without bits.
    ///
    /// <details><summary>Contract</summary>
    ///
    /// # Contract
    ///
    /// ```text
    /// ensures { result ≡ bytes.now }
    /// ```
    ///
    /// </details>
    #[inline]
    pub fn of(bytes: &'a [u8]) -> Self {
        LayoutTable {
            bytes,
            starts: &[],
            tables: &[],
            of_gpos: false,
            rows: None,
        }
    }

    /// The lookups of GSUB, or of GPOS, that may begin in a text, as bits by their numbers, if they
    /// are known: those of the first 128 whose bit isn't set begin at no glyph.
    ///
    /// <details><summary>Contract</summary>
    ///
    /// # Contract
    ///
    /// ```text
    /// ensures { IfSome result (λ bits. AreAbsent of_gpos self.now bits glyphs.now) }
    /// ```
    ///
    /// - `AreAbsent`: `crates/opentype_layout/specs/LookupRows.antt`
    ///
    /// </details>
    #[inline]
    pub fn present(&self, of_gpos: bool, glyphs: &[GlyphInfo]) -> Option<LookupBits> {
        if of_gpos != self.of_gpos {
            return None;
        }
        match self.rows {
            Some(rows) => Some(rows_of(rows, glyphs)),
            None => None,
        }
    }

    /// A lookup's table; an empty one, if there is none with that number.
    ///
    /// <details><summary>Contract</summary>
    ///
    /// # Contract
    ///
    /// ```text
    /// ensures { result ≡ lookup_in self.now index }
    /// ```
    ///
    /// - `lookup_in`: `crates/opentype_face/specs/Lookups.antt`
    ///
    /// </details>
    #[inline]
    pub fn lookup(&self, index: u16) -> LookupTable<'a> {
        let at = usize::from(index);
        if at >= self.starts.len() {
            return LookupTable::of(lookup(self.bytes, index));
        }
        let table = LookupTable::prepared(&self.starts[at]);
        if at >= self.tables.len() {
            return table;
        }
        table.with_tables(&self.tables[at])
    }
}
