// Generated from crates/shapers_buffer/src/buffer/lookup_record.rt by rust/erase; edit the source.

//! What the lookups of a text leave for those behind them.

/// What the lookups of a text leave for those behind them: HarfBuzz keeps the same in its buffer.
#[derive(Clone, Copy, Debug, PartialEq, Eq, Hash)]
pub struct LookupRecord {
    /// The number of the last ligature, of which a glyph keeps the lowest three bits.
    pub ligature_serial: u8,
    /// The state of the generator that picks alternates at random.
    pub random_state: u32,
    /// How many operations the lookups may still take, so that no font makes them go on for ever.
    pub operations_left: usize,
    /// Whether no lookup has left anything undone for want of operations or of length.
    pub is_complete: bool,
}

// How many operations a text has for each of its glyphs, as in HarfBuzz, and how many at least.
const OPERATIONS_OF_GLYPH: usize = 4096;

const LEAST_OPERATIONS: usize = 65536;

impl LookupRecord {
    /// The record before the first lookup of a text of `len` glyphs: it may take 4,096 operations a
    /// glyph, and 65,536 at least.
    ///
    /// <details><summary>Contract</summary>
    ///
    /// # Contract
    ///
    /// ```text
    /// ensures { result ≡ record_for len }
    /// ```
    ///
    /// - `record_for`: `crates/shapers_buffer/specs/LookupRecords.antt`
    ///
    /// </details>
    #[inline]
    pub fn for_text(len: usize) -> Self {
        LookupRecord {
            ligature_serial: 0,
            random_state: 1,
            operations_left: len
                .saturating_mul(OPERATIONS_OF_GLYPH)
                .max(LEAST_OPERATIONS),
            is_complete: true,
        }
    }
}
