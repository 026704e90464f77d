// Generated from crates/shapers_pipeline/src/lookups.rt by rust/erase; edit the source.

//! The lookups of a font, stage by stage, with what the shaper does behind each stage.

use crate::generated::shapers_base::buffer::{
    Buffer, GlyphChange, GlyphInfo, GlyphProps, LigProps, LookupRecord, ShaperError,
};
use crate::generated::shapers_plan::ot_map::StageLookup;
use crate::generated::shapers_position::ot_shape_position::GlyphClasses;

/// The lookups of a font's GSUB and GPOS. Each is a function of the text: the same text becomes the
/// same.
pub trait Lookups: GlyphClasses {
    /// What the lookups keep in `glyph_props`, as the glyph's class of `GDEF`, before the first of
    /// them: it is called once for each glyph, of which no bit is set there yet.
    ///
    /// <details><summary>Contract</summary>
    ///
    /// # Contract
    ///
    /// ```text
    /// ensures { result ≡ noted self.now glyph.now }
    /// ```
    ///
    /// </details>
    fn glyph_props(&self, glyph: &GlyphInfo) -> GlyphProps;

    /// How many times as long a lookup of GSUB makes a text at most: 1 where none gets longer, and the
    /// greatest number where no bound is known.
    ///
    /// <details><summary>Contract</summary>
    ///
    /// # Contract
    ///
    /// ```text
    /// ensures { result ≡ growth_of self.now lookup.now }
    /// ```
    ///
    /// </details>
    fn growth(&self, lookup: &StageLookup) -> usize;

    /// Applies a lookup of GSUB to a text of glyphs without positions. It reads and writes glyphs and
    /// the record of the text's lookups alone. Each cluster that it leaves is one that the text had, and at the levels that merge clusters that
    /// rise along the text, or fall, still do.
    ///
    /// # Errors
    ///
    /// [`TooLong`] or [`Memory`]; nothing has changed then. [`TooLong`] doesn't come where the buffer has
    /// room for the text's growth.
    ///
    /// <details><summary>Contract</summary>
    ///
    /// # Contract
    ///
    /// ```text
    /// requires { buffer.old.positions ≡ [] }
    /// ensures ok { OnOk result (buffer.new ≡ substituted self.now lookup.now buffer.old) }
    /// ensures room { let times = growth_of self.now lookup.now in
    ///     length buffer.old.glyphs * times ≤ buffer.old.max_len → result ≢ Err TooLong }
    /// ensures refusal { let may = substituting_refuses self.now lookup.now buffer.old in
    ///     IfErr result (λ e. MayRefuse may e) }
    /// ensures err { OnErr result (buffer.new ≡ buffer.old) }
    /// ```
    ///
    /// - `MayRefuse`: `crates/shapers_pipeline/specs/Lookups.antt`
    ///
    /// </details>
    ///
    /// [`Memory`]: crate::ShaperError::Memory
    /// [`TooLong`]: crate::ShaperError::TooLong
    fn substitute(&self, lookup: &StageLookup, buffer: &mut Buffer) -> Result<(), ShaperError>;

    /// Applies lookups of GSUB, those of a stage, one after another. By default each is applied by
    /// `substitute`. Write it where it can be known at once that some of the lookups leave the text
    /// as it is, and pass over these.
    ///
    /// # Errors
    ///
    /// That of the first lookup that refuses; the text is what the lookups before that one made of
    /// it. [`TooLong`] doesn't come where the buffer has room for the growth of all lookups.
    ///
    /// <details><summary>Contract</summary>
    ///
    /// # Contract
    ///
    /// ```text
    /// requires { buffer.old.positions ≡ [] }
    /// ensures ok { let f = substituted self.now in
    ///     OnOk result (buffer.new ≡ looked_up f list.now buffer.old) }
    /// ensures room { let growth = growth_of self.now in
    ///     looked_up_bound growth list.now (length buffer.old.glyphs) ≤ buffer.old.max_len →
    ///     result ≢ Err TooLong }
    /// ensures err { let f = substituted self.now in
    ///     let refusals = substituting_refuses self.now in
    ///     IfErr result (λ e. StoppedIn f refusals list.now buffer.old buffer.new e) }
    /// ```
    ///
    /// - `looked_up_bound`: `crates/shapers_pipeline/specs/Lengths.antt`
    /// - `StoppedIn`, `looked_up`: `crates/shapers_pipeline/specs/Lookups.antt`
    ///
    /// </details>
    ///
    /// [`TooLong`]: crate::ShaperError::TooLong
    #[inline]
    fn substitute_all(&self, list: &[StageLookup], buffer: &mut Buffer) -> Result<(), ShaperError> {
        for lookup in list {
            self.substitute(lookup, buffer)?;
        }
        Ok(())
    }

    /// Applies a lookup of GPOS to a text of glyphs with positions. It writes these and glyph
    /// flags alone.
    ///
    /// # Errors
    ///
    /// [`TooLong`] or [`Memory`]; nothing has changed then.
    ///
    /// <details><summary>Contract</summary>
    ///
    /// # Contract
    ///
    /// ```text
    /// requires { length buffer.old.positions ≡ length buffer.old.glyphs }
    /// ensures ok { OnOk result (buffer.new ≡ positioned self.now lookup.now buffer.old) }
    /// ensures refusal { let may = positioning_refuses self.now lookup.now buffer.old in
    ///     IfErr result (λ e. MayRefuse may e) }
    /// ensures err { OnErr result (buffer.new ≡ buffer.old) }
    /// ```
    ///
    /// - `MayRefuse`: `crates/shapers_pipeline/specs/Lookups.antt`
    ///
    /// </details>
    ///
    /// [`Memory`]: crate::ShaperError::Memory
    /// [`TooLong`]: crate::ShaperError::TooLong
    fn position(&self, lookup: &StageLookup, buffer: &mut Buffer) -> Result<(), ShaperError>;

    /// Applies lookups of GPOS, one after another. By default each is applied by `position`. Write
    /// it where it can be known at once that some of the lookups leave the text as it is, and pass
    /// over these.
    ///
    /// # Errors
    ///
    /// That of the first lookup that refuses; the text is what the lookups before that one made of
    /// it.
    ///
    /// <details><summary>Contract</summary>
    ///
    /// # Contract
    ///
    /// ```text
    /// requires { length buffer.old.positions ≡ length buffer.old.glyphs }
    /// ensures ok { let f = positioned self.now in
    ///     OnOk result (buffer.new ≡ looked_up f list.now buffer.old) }
    /// ensures err { let f = positioned self.now in
    ///     let refusals = positioning_refuses self.now in
    ///     IfErr result (λ e. StoppedIn f refusals list.now buffer.old buffer.new e) }
    /// ```
    ///
    /// - `StoppedIn`, `looked_up`: `crates/shapers_pipeline/specs/Lookups.antt`
    ///
    /// </details>
    #[inline]
    fn position_all(&self, list: &[StageLookup], buffer: &mut Buffer) -> Result<(), ShaperError> {
        for lookup in list {
            self.position(lookup, buffer)?;
        }
        Ok(())
    }

    /// Moves the glyphs that lookups attached to others, behind the last lookup of GPOS. It writes
    /// what a lookup of GPOS writes.
    ///
    /// <details><summary>Contract</summary>
    ///
    /// # Contract
    ///
    /// ```text
    /// requires { length buffer.old.positions ≡ length buffer.old.glyphs }
    /// ensures { buffer.new ≡ finished self.now buffer.old }
    /// ```
    ///
    /// </details>
    fn finish_positions(&self, buffer: &mut Buffer);
}

// Notes of each glyph what the lookups keep there; none is of a ligature yet, and the record of the
// text's lookups begins.
pub(crate) fn note_glyphs<L: Lookups>(lookups: &L, buffer: &mut Buffer) {
    // (lookups that panic leave the empty buffer, and no text with some of its glyphs noted)
    buffer.change_outside(&Noting { lookups });
    buffer.set_lookup_record(LookupRecord::for_text(buffer.len()));
}

// The note beside one glyph.
struct Noting<'a, L: Lookups> {
    lookups: &'a L,
}

impl<'a, L: Lookups> GlyphChange for Noting<'a, L> {
    #[inline]
    fn change(&self, glyph: &mut GlyphInfo) {
        glyph.glyph_props = self.lookups.glyph_props(glyph);
        glyph.lig_props = LigProps::NONE;
    }
}

// Applies the lookups of a stage, and tells how long the text gets.
#[inline]
pub(crate) fn apply_lookups<L: Lookups>(
    lookups: &L,
    list: &[StageLookup],
    buffer: &mut Buffer,
) -> Result<(), ShaperError> {
    // (so that a stage without lookups costs no call)
    if list.is_empty() {
        return Ok(());
    }
    lookups.substitute_all(list, buffer)
}
