// Generated from crates/shapers_syllabic/src/ot_shaper_syllabic/moving.rt by rust/erase; edit the source.

//! One glyph of a syllable that moves before others, and where it goes.

use crate::generated::shapers_base::buffer::{Buffer, GlyphInfo, Placement};

/// The place of the first of the glyphs directly before the one at `from` that have greater
/// positions.
///
/// <details><summary>Contract</summary>
///
/// # Contract
///
/// ```text
/// requires { from < length glyphs.now }
/// ensures before { result ≤ from }
/// ensures passes { (k : ℕ) → result ≤ k → k < from →
///     (get_or glyphs.now from default_glyph).auxiliary
///     < (get_or glyphs.now k default_glyph).auxiliary }
/// ensures stops { (k : ℕ) → result ≡ suc k →
///     (get_or glyphs.now k default_glyph).auxiliary
///     ≤ (get_or glyphs.now from default_glyph).auxiliary }
/// ```
///
/// - `default_glyph`: `crates/shapers_buffer/specs/Glyph.antt`
///
/// </details>
#[inline]
pub fn place_among(glyphs: &[GlyphInfo], from: usize) -> usize {
    let position = glyphs[from].auxiliary;
    for i in (0..from).rev() {
        if glyphs[i].auxiliary <= position {
            return i + 1;
        }
    }
    0
}

/// Moves the glyph at `from` of the syllable from `start` to `end` to its place `to`, before others;
/// both count from `start`. It takes no memory.
///
/// <details><summary>Contract</summary>
///
/// # Contract
///
/// ```text
/// requires in_order { start ≤ end }
/// requires in_range { end ≤ length buffer.old.glyphs }
/// requires before { to ≤ from }
/// requires inside { from < end - start }
/// ensures { let moved = with_stretch start end (moved_forward to from) buffer.old.glyphs in
///     buffer.new ≡ record buffer.old { glyphs = moved } }
/// ```
///
/// - `with_stretch`: `crates/shapers_buffer/specs/Clusters.antt`
/// - `moved_forward`: `crates/shapers_syllabic/specs/MovedForward.antt`
///
/// </details>
#[inline]
pub fn move_before(buffer: &mut Buffer, start: usize, end: usize, from: usize, to: usize) {
    let (to, from) = (start + to, start + from);
    buffer.apply(start, end, Placement::Forward { to, from, count: 1 });
}
