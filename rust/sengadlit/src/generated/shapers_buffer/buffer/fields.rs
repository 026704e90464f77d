// Generated from crates/shapers_buffer/src/buffer/fields.rt by rust/erase; edit the source.

//! Readers and setters of the buffer's fields.

use crate::support::prelude::*;

use super::{
    Buffer, BufferClusterLevel, BufferFlags, Direction, GlyphPosition, LookupRecord, Script,
    context,
};

impl Buffer {
    /// Where the glyph at `index` is drawn; `index` is below the number of positions.
    ///
    /// # Panics
    ///
    /// Where there is no position at `index`.
    ///
    /// <details><summary>Contract</summary>
    ///
    /// # Contract
    ///
    /// ```text
    /// requires { index < length self.now.positions }
    /// ensures { result ≡ slice_index_or self.now.positions index result }
    /// ```
    ///
    /// </details>
    #[inline]
    pub fn position(&self, index: usize) -> GlyphPosition {
        self.pos[index]
    }

    /// Sets where the glyph at `index` is drawn; `index` is below the number of positions.
    ///
    /// # Panics
    ///
    /// Where there is no position at `index`.
    ///
    /// <details><summary>Contract</summary>
    ///
    /// # Contract
    ///
    /// ```text
    /// requires { index < length self.old.positions }
    /// ensures { self.new ≡
    ///     record self.old { positions = slice_set self.old.positions index position } }
    /// ```
    ///
    /// </details>
    #[inline]
    pub fn set_position(&mut self, index: usize, position: GlyphPosition) {
        self.pos[index] = position;
    }

    /// Where the glyphs are drawn: none, or one per glyph.
    ///
    /// <details><summary>Contract</summary>
    ///
    /// # Contract
    ///
    /// ```text
    /// ensures { result.now ≡ self.now.positions }
    /// ```
    ///
    /// </details>
    #[inline]
    pub fn positions(&self) -> &[GlyphPosition] {
        self.pos.as_slice()
    }

    /// How many positions there are: none, or one per glyph.
    ///
    /// <details><summary>Contract</summary>
    ///
    /// # Contract
    ///
    /// ```text
    /// ensures length { result ≡ length self.now.positions }
    /// ensures paired { 0 < result → result ≡ length self.now.glyphs }
    /// ```
    ///
    /// </details>
    #[inline]
    pub fn positions_len(&self) -> usize {
        self.pos.len()
    }

    /// Takes positions, none or one per glyph, and returns true; for any other number of them it
    /// returns false and nothing changes.
    ///
    /// <details><summary>Contract</summary>
    ///
    /// # Contract
    ///
    /// ```text
    /// ensures answer { result ≡ can_be_positions positions.items self.old }
    /// ensures changed { let taken = record self.old { positions = positions.items } in
    ///     self.new ≡ (if result then taken else self.old) }
    /// ```
    ///
    /// - `can_be_positions`: `crates/shapers_buffer/specs/Buffer.antt`
    ///
    /// </details>
    #[inline]
    #[must_use]
    pub fn set_positions(&mut self, positions: Vec<GlyphPosition>) -> bool {
        let fits = positions.is_empty() || positions.len() == self.info.len();
        if fits {
            self.pos = positions;
        }
        fits
    }

    /// The direction of the text.
    ///
    /// <details><summary>Contract</summary>
    ///
    /// # Contract
    ///
    /// ```text
    /// ensures { result ≡ self.now.direction }
    /// ```
    ///
    /// </details>
    #[inline]
    pub fn direction(&self) -> Direction {
        self.direction
    }

    /// Sets the direction of the text.
    ///
    /// <details><summary>Contract</summary>
    ///
    /// # Contract
    ///
    /// ```text
    /// ensures { self.new ≡ record self.old { direction = direction } }
    /// ```
    ///
    /// </details>
    #[inline]
    pub fn set_direction(&mut self, direction: Direction) {
        self.direction = direction;
    }

    /// The script of the text, where it is known.
    ///
    /// <details><summary>Contract</summary>
    ///
    /// # Contract
    ///
    /// ```text
    /// ensures { result ≡ self.now.script }
    /// ```
    ///
    /// </details>
    #[inline]
    pub fn script(&self) -> Option<Script> {
        self.script
    }

    /// Sets the script of the text.
    ///
    /// <details><summary>Contract</summary>
    ///
    /// # Contract
    ///
    /// ```text
    /// ensures { self.new ≡ record self.old { script = script } }
    /// ```
    ///
    /// </details>
    #[inline]
    pub fn set_script(&mut self, script: Option<Script>) {
        self.script = script;
    }

    /// How clusters merge.
    ///
    /// <details><summary>Contract</summary>
    ///
    /// # Contract
    ///
    /// ```text
    /// ensures { result ≡ self.now.level }
    /// ```
    ///
    /// </details>
    #[inline]
    pub fn cluster_level(&self) -> BufferClusterLevel {
        self.cluster_level
    }

    /// Sets how clusters merge from now on.
    ///
    /// <details><summary>Contract</summary>
    ///
    /// # Contract
    ///
    /// ```text
    /// ensures { self.new ≡ record self.old { level = cluster_level } }
    /// ```
    ///
    /// </details>
    #[inline]
    pub fn set_cluster_level(&mut self, cluster_level: BufferClusterLevel) {
        self.cluster_level = cluster_level;
    }

    /// What the caller wants of the shapers.
    ///
    /// <details><summary>Contract</summary>
    ///
    /// # Contract
    ///
    /// ```text
    /// ensures { result ≡ self.now.flags }
    /// ```
    ///
    /// </details>
    #[inline]
    pub fn flags(&self) -> BufferFlags {
        self.flags
    }

    /// Sets what the caller wants of the shapers.
    ///
    /// <details><summary>Contract</summary>
    ///
    /// # Contract
    ///
    /// ```text
    /// ensures { self.new ≡ record self.old { flags = flags } }
    /// ```
    ///
    /// </details>
    #[inline]
    pub fn set_flags(&mut self, flags: BufferFlags) {
        self.flags = flags;
    }

    /// The text before the buffer's, nearest character first: at most five.
    ///
    /// <details><summary>Contract</summary>
    ///
    /// # Contract
    ///
    /// ```text
    /// ensures chars { result.now ≡ self.now.before }
    /// ensures at_most_five { length self.now.before ≤ 5 }
    /// ```
    ///
    /// </details>
    #[inline]
    pub fn pre_context(&self) -> &[char] {
        self.pre_context.as_slice()
    }

    /// Keeps the five nearest of these characters, which are nearest first, as the text before.
    ///
    /// <details><summary>Contract</summary>
    ///
    /// # Contract
    ///
    /// ```text
    /// ensures { self.new ≡ record self.old { before = take 5 chars.now } }
    /// ```
    ///
    /// </details>
    #[inline]
    pub fn set_pre_context(&mut self, chars: &[char]) {
        self.pre_context = context(chars);
    }

    /// The text after the buffer's, nearest character first: at most five.
    ///
    /// <details><summary>Contract</summary>
    ///
    /// # Contract
    ///
    /// ```text
    /// ensures chars { result.now ≡ self.now.after }
    /// ensures at_most_five { length self.now.after ≤ 5 }
    /// ```
    ///
    /// </details>
    #[inline]
    pub fn post_context(&self) -> &[char] {
        self.post_context.as_slice()
    }

    /// Keeps the five nearest of these characters, which are nearest first, as the text after.
    ///
    /// <details><summary>Contract</summary>
    ///
    /// # Contract
    ///
    /// ```text
    /// ensures { self.new ≡ record self.old { after = take 5 chars.now } }
    /// ```
    ///
    /// </details>
    #[inline]
    pub fn set_post_context(&mut self, chars: &[char]) {
        self.post_context = context(chars);
    }

    /// Whether some span was of the broken kind.
    ///
    /// <details><summary>Contract</summary>
    ///
    /// # Contract
    ///
    /// ```text
    /// ensures { result ≡ self.now.broken }
    /// ```
    ///
    /// </details>
    #[inline]
    pub fn has_broken_syllable(&self) -> bool {
        self.has_broken_syllable
    }

    /// Sets the mark that some span was of the broken kind.
    ///
    /// <details><summary>Contract</summary>
    ///
    /// # Contract
    ///
    /// ```text
    /// ensures { self.new ≡ record self.old { broken = has_broken_syllable } }
    /// ```
    ///
    /// </details>
    #[inline]
    pub fn set_has_broken_syllable(&mut self, has_broken_syllable: bool) {
        self.has_broken_syllable = has_broken_syllable;
    }

    /// Whether some glyph is a piece of a stretched mark.
    ///
    /// <details><summary>Contract</summary>
    ///
    /// # Contract
    ///
    /// ```text
    /// ensures { result ≡ self.now.stch }
    /// ```
    ///
    /// </details>
    #[inline]
    pub fn has_stch(&self) -> bool {
        self.has_stch
    }

    /// Sets the mark that some glyph is a piece of a stretched mark.
    ///
    /// <details><summary>Contract</summary>
    ///
    /// # Contract
    ///
    /// ```text
    /// ensures { self.new ≡ record self.old { stch = has_stch } }
    /// ```
    ///
    /// </details>
    #[inline]
    pub fn set_has_stch(&mut self, has_stch: bool) {
        self.has_stch = has_stch;
    }

    /// What the lookups left for those behind them.
    ///
    /// <details><summary>Contract</summary>
    ///
    /// # Contract
    ///
    /// ```text
    /// ensures { result ≡ self.now.lookups }
    /// ```
    ///
    /// </details>
    #[inline]
    pub fn lookup_record(&self) -> LookupRecord {
        self.lookup_record
    }

    /// Sets what the lookups left: a text begins with [`LookupRecord::for_text`].
    ///
    /// <details><summary>Contract</summary>
    ///
    /// # Contract
    ///
    /// ```text
    /// ensures { self.new ≡ record self.old { lookups = lookup_record } }
    /// ```
    ///
    /// </details>
    #[inline]
    pub fn set_lookup_record(&mut self, lookup_record: LookupRecord) {
        self.lookup_record = lookup_record;
    }

    /// The greatest length that the buffer may have.
    ///
    /// <details><summary>Contract</summary>
    ///
    /// # Contract
    ///
    /// ```text
    /// ensures limit { result ≡ self.now.max_len }
    /// ensures fits { length self.now.glyphs ≤ result }
    /// ```
    ///
    /// </details>
    #[inline]
    pub fn max_len(&self) -> usize {
        self.max_len
    }

    /// Sets the greatest length that the buffer may have; a limit below its length counts as its
    /// length, so that the text doesn't grow.
    ///
    /// <details><summary>Contract</summary>
    ///
    /// # Contract
    ///
    /// ```text
    /// ensures { self.new ≡
    ///     record self.old { max_len = max max_len (length self.old.glyphs) } }
    /// ```
    ///
    /// </details>
    #[inline]
    pub fn set_max_len(&mut self, max_len: usize) {
        self.max_len = max_len.max(self.info.len());
    }
}
