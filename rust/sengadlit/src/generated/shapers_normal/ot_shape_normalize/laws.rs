// Generated from crates/shapers_normal/src/ot_shape_normalize/laws.rt by rust/erase; edit the source.

//! Laws of normalization, for every shaper, font and tables.

/// For how many glyphs a text of so many has room, whatever becomes of it: nine times as many.
///
/// <details><summary>Contract</summary>
///
/// # Contract
///
/// ```text
/// ensures bound { result ≡ min (len * 9) (2 ^ 64 - 1) }
/// ensures law { GrowsNinefold }
/// ```
///
/// - `GrowsNinefold`: `crates/shapers_normal/specs/Laws.antt`
///
/// </details>
#[inline]
pub fn length_bound(len: usize) -> usize {
    len.saturating_mul(9)
}
