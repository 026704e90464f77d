// Generated from crates/opentype_layout/src/substitution_tables.rt by rust/erase; edit the source.

//! Subtables of GSUB, with tables of the glyphs that they begin with.

use crate::support::prelude::*;

use crate::generated::opentype_face::bytes::u16_at;
use crate::generated::opentype_face::glyph_tables::PreparedCoverage;
use crate::generated::opentype_face::lookup::{subtable, subtable_count, subtable_type};
use crate::generated::opentype_layout::budget::paid_for;
use crate::generated::opentype_layout::context_tables::ContextTable;
use crate::generated::opentype_layout::sets::{
    first_set, place_in_set, place_of_set, table_of_set,
};
use crate::support::alloc::Global;

/// How many bytes a table costs beside the places of its glyphs.
const TABLE_COST: usize = 96;

/// How many bytes the tables of a context cost beside their classes and rules.
const CONTEXT_COST: usize = 256;

/// A subtable of GSUB at a glyph.
#[derive(Clone, Copy, Debug)]
pub struct SubtableAt<'a> {
    /// Its type.
    pub kind: u16,
    /// Its bytes.
    pub bytes: &'a [u8],
    /// The place of the glyph in the set that the subtable begins with.
    pub place: Option<u32>,
}

/// A subtable of GSUB, and a table of the set of glyphs that it begins with, if it has one.
#[derive(Clone, Copy, Debug)]
pub struct SubtableRef<'a> {
    /// Its type.
    pub kind: u16,
    /// Its bytes.
    pub bytes: &'a [u8],
    /// The table of the set.
    pub set: Option<&'a PreparedCoverage<'a>>,
    /// Its tables, if it is a context that has them.
    pub context: Option<&'a ContextTable<'a>>,
}

impl<'a> SubtableRef<'a> {
    /// The subtable of a lookup with a number, without a table.
    #[inline]
    pub(crate) fn of(lookup: &'a [u8], i: u16) -> Self {
        SubtableRef {
            kind: subtable_type(7, lookup, i),
            bytes: subtable(7, lookup, i),
            set: None,
            context: None,
        }
    }

    /// The subtable at a glyph.
    ///
    /// <details><summary>Contract</summary>
    ///
    /// # Contract
    ///
    /// ```text
    /// ensures kind { result.kind ≡ self.now.kind }
    /// ensures bytes { result.bytes.now ≡ self.now.bytes.now }
    /// ensures place { result.place ≡ first_place (record {
    ///   kind = self.now.kind;
    ///   bytes = self.now.bytes.now;
    /// }) glyph }
    /// ```
    ///
    /// - `first_place`: `crates/opentype_layout/specs/SubstitutionTables.antt`
    ///
    /// </details>
    #[inline]
    pub fn at(&self, glyph: u16) -> SubtableAt<'a> {
        let at = place_of_set(false, self.kind, self.bytes);
        SubtableAt {
            kind: self.kind,
            bytes: self.bytes,
            place: place_in_set(self.bytes, at, self.set, glyph),
        }
    }
}

// The tables of a context of format 1 or 2. There are none of another subtable, and where a budget
// in bytes or memory doesn't suffice.
fn tables_of_context<'a>(
    alloc: Global,
    kind: u16,
    bytes: &'a [u8],
    budget: &mut usize,
) -> Vec<ContextTable<'a>> {
    let format = u16_at(bytes, 0);
    let has_rules = matches!(kind, 5 | 6) && matches!(format, 1 | 2);
    if !has_rules || paid_for(1, CONTEXT_COST, budget) == 0 {
        return Vec::new(alloc);
    }
    let Ok(mut tables) = Vec::with_capacity(alloc, 1) else {
        return Vec::new(alloc);
    };
    let table = ContextTable::new(alloc, kind, bytes, budget);
    if tables.push(table).is_err() {
        return Vec::new(alloc);
    }
    tables
}

/// A subtable of GSUB, with its type, and with a table of the glyphs that it begins with.
#[derive(Debug)]
pub struct SubstitutionTable<'a> {
    bytes: &'a [u8],
    kind: u16,
    set: PreparedCoverage<'a>,
    // (one of a context, which is large; none of another subtable)
    contexts: Vec<ContextTable<'a>>,
}

impl<'a> SubstitutionTable<'a> {
    /// The subtable of a lookup with a number, and its table, for which a budget in bytes pays.
    ///
    /// <details><summary>Contract</summary>
    ///
    /// # Contract
    ///
    /// ```text
    /// ensures { result ≡ nth_subtable lookup.now i }
    /// ```
    ///
    /// - `nth_subtable`: `crates/opentype_layout/specs/SubstitutionTables.antt`
    ///
    /// </details>
    pub fn new(alloc: Global, lookup: &'a [u8], i: u16, budget: &mut usize) -> Self {
        let (kind, bytes) = (subtable_type(7, lookup, i), subtable(7, lookup, i));
        SubstitutionTable {
            bytes,
            kind,
            set: table_of_set(first_set(false, lookup, i), alloc, budget),
            contexts: tables_of_context(alloc, kind, bytes, budget),
        }
    }

    /// The subtable, with its table.
    ///
    /// <details><summary>Contract</summary>
    ///
    /// # Contract
    ///
    /// ```text
    /// ensures kind { result.kind ≡ self.now.kind }
    /// ensures bytes { result.bytes.now ≡ self.now.bytes }
    /// ```
    ///
    /// </details>
    #[inline]
    pub fn as_subtable(&self) -> SubtableRef<'_> {
        SubtableRef {
            kind: self.kind,
            bytes: self.bytes,
            set: Some(&self.set),
            context: self.contexts.first(),
        }
    }
}

/// Tables of a lookup's first subtables. Where a budget in bytes or memory doesn't suffice, there
/// are fewer.
pub(crate) fn tables_of_sets<'a>(
    alloc: Global,
    lookup: &'a [u8],
    budget: &mut usize,
) -> Vec<SubstitutionTable<'a>> {
    let count = paid_for(subtable_count(lookup), TABLE_COST, budget);
    let Ok(mut tables) = Vec::with_capacity(alloc, usize::from(count)) else {
        return Vec::new(alloc);
    };
    for i in 0..count {
        let table = SubstitutionTable::new(alloc, lookup, i, budget);
        if tables.push(table).is_err() {
            return tables;
        }
    }
    tables
}
