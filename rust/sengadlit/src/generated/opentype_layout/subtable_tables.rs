// Generated from crates/opentype_layout/src/subtable_tables.rt by rust/erase; edit the source.

//! Tables of a lookup's subtables.

use crate::support::prelude::*;

use crate::generated::opentype_layout::pair_tables::{PairTable, tables_of_pairs};
use crate::generated::opentype_layout::position_tables::{PositionTable, tables_of_positions};
use crate::generated::opentype_layout::substitution_tables::{SubstitutionTable, tables_of_sets};
use crate::support::alloc::Global;

/// Tables of a lookup's subtables; of GPOS those of pairs have their own.
#[derive(Debug)]
pub struct SubtableTables<'a> {
    lookup: &'a [u8],
    pairs: Vec<PairTable<'a>>,
    positions: Vec<PositionTable<'a>>,
    substitutions: Vec<SubstitutionTable<'a>>,
}

impl<'a> SubtableTables<'a> {
    /// Makes the tables of a lookup of GSUB, or of GPOS. Where a budget in bytes or memory doesn't
    /// suffice, there are fewer.
    ///
    /// <details><summary>Contract</summary>
    ///
    /// # Contract
    ///
    /// ```text
    /// ensures { result ≡ lookup.now }
    /// ```
    ///
    /// </details>
    pub fn new(alloc: Global, of_gpos: bool, lookup: &'a [u8], budget: &mut usize) -> Self {
        if of_gpos {
            let pairs = tables_of_pairs(alloc, lookup, budget);
            // (a lookup's subtables are of one type)
            let positions = if pairs.is_empty() {
                tables_of_positions(alloc, lookup, budget)
            } else {
                Vec::new(alloc)
            };
            return SubtableTables {
                lookup,
                pairs,
                positions,
                substitutions: Vec::new(alloc),
            };
        }
        SubtableTables {
            lookup,
            pairs: Vec::new(alloc),
            positions: Vec::new(alloc),
            substitutions: tables_of_sets(alloc, lookup, budget),
        }
    }

    /// The tables of the first subtables of pairs.
    ///
    /// <details><summary>Contract</summary>
    ///
    /// # Contract
    ///
    /// ```text
    /// ensures { ArePairTables self.now result.now }
    /// ```
    ///
    /// - `ArePairTables`: `crates/opentype_layout/specs/PairTables.antt`
    ///
    /// </details>
    #[inline]
    pub fn pairs(&self) -> &[PairTable<'a>] {
        self.pairs.as_slice()
    }

    /// The tables of the first subtables of a lookup of GPOS whose first isn't of pairs.
    ///
    /// <details><summary>Contract</summary>
    ///
    /// # Contract
    ///
    /// ```text
    /// ensures { ArePositions self.now result.now }
    /// ```
    ///
    /// - `ArePositions`: `crates/opentype_layout/specs/PositionTables.antt`
    ///
    /// </details>
    #[inline]
    pub fn positions(&self) -> &[PositionTable<'a>] {
        self.positions.as_slice()
    }

    /// The tables of the first subtables of a lookup of GSUB.
    ///
    /// <details><summary>Contract</summary>
    ///
    /// # Contract
    ///
    /// ```text
    /// ensures { AreSubtables self.now result.now }
    /// ```
    ///
    /// - `AreSubtables`: `crates/opentype_layout/specs/SubstitutionTables.antt`
    ///
    /// </details>
    #[inline]
    pub fn substitutions(&self) -> &[SubstitutionTable<'a>] {
        self.substitutions.as_slice()
    }
}
