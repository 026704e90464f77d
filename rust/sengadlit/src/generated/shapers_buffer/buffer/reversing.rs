// Generated from crates/shapers_buffer/src/buffer/reversing.rt by rust/erase; edit the source.

//! The buffer backwards.

use super::{Buffer, GlyphPosition};

impl Buffer {
    /// Reverses the glyphs, with their positions.
    ///
    /// <details><summary>Contract</summary>
    ///
    /// # Contract
    ///
    /// ```text
    /// ensures { self.new ≡ record self.old {
    ///   glyphs = reverse self.old.glyphs;
    ///   positions = reverse self.old.positions;
    /// } }
    /// ```
    ///
    /// </details>
    #[inline]
    pub fn reverse(&mut self) {
        self.info.reverse();
        self.pos.reverse();
    }

    /// Reverses the glyphs from `start` to `end`, with their positions.
    ///
    /// # Panics
    ///
    /// Where `start` is above `end`, or `end` above the length.
    ///
    /// <details><summary>Contract</summary>
    ///
    /// # Contract
    ///
    /// ```text
    /// requires in_order { start ≤ end }
    /// requires in_range { end ≤ length self.old.glyphs }
    /// ensures { self.new ≡ record self.old {
    ///   glyphs = with_stretch start end reverse self.old.glyphs;
    ///   positions = with_stretch start end reverse self.old.positions;
    /// } }
    /// ```
    ///
    /// - `with_stretch`: `crates/shapers_buffer/specs/Clusters.antt`
    ///
    /// </details>
    #[inline]
    pub fn reverse_range(&mut self, start: usize, end: usize) {
        self.info[start..end].reverse();
        reverse_positions(&mut self.pos, start, end);
    }
}

// Reverses the positions from `start` to `end`, if there are any.
#[inline]
fn reverse_positions(positions: &mut [GlyphPosition], start: usize, end: usize) {
    if !positions.is_empty() {
        positions[start..end].reverse();
    }
}
