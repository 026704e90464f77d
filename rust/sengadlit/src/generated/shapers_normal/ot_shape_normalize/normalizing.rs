// Generated from crates/shapers_normal/src/ot_shape_normalize/normalizing.rt by rust/erase; edit the source.

//! The three rounds, one after another.

use super::context::NormalizeContext;
use super::decomposing::decompose;
use super::numbering::number_word;
use super::properties::GRAPHEME_JOINER;
use super::recomposing::recompose_in;
use super::sorting::{class, is_mark, order_marks_in};
use crate::generated::shapers_base::buffer::{
    Buffer, BufferClusterLevel, GlyphInfo, GlyphWalk, ShaperError,
};
use crate::generated::shapers_base::plan::NormalizationMode;

/// When marks are ordered and composed.
#[derive(Clone, Copy, Debug, PartialEq, Eq, Default, Hash)]
pub enum Rounds {
    /// Where the text has a mark behind its first place, as the code of HarfBuzz has it: a letter
    /// that comes apart in a text without marks stays apart.
    #[default]
    AsCode,
    /// In each text, so that a letter becomes the same in a short text and in a long one.
    Always,
}

/// Normalizes a text without positions, whose glyphs are characters with their properties: takes
/// them apart, orders the marks, and composes what the font has. `glyph_props` is then the number
/// of each character's glyph. Refuses where the text taken apart is longer than the buffer may be,
/// and then nothing has changed. A text of which nothing comes apart takes no memory. (Unicode
/// Standard Annex 15; HarfBuzz's order of rounds.)
///
/// # Errors
///
/// [`TooLong`] where the text taken apart is longer than the buffer may be, and [`Memory`]; nothing has changed then.
///
/// # Panics
///
/// Where the context does. May panic, or leave an unspecified text, where the buffer has positions.
///
/// <details><summary>Contract</summary>
///
/// # Contract
///
/// ```text
/// requires { buffer.old.positions ≡ [] }
/// ensures ok { let context = C.context context.now in
///     let text = normalized context rounds buffer.old.level buffer.old.glyphs in
///     OnOk result (buffer.new ≡ record buffer.old { glyphs = text }) }
/// ensures length { let context = C.context context.now in
///     let text = first_round context buffer.old.level buffer.old.glyphs in
///     RefusesLength buffer.old.max_len (length text) result }
/// ensures memory { is_whole (C.context context.now) buffer.old.glyphs ≡ true → IsOk result }
/// ensures in_place { let context = C.context context.now in
///     stays_together context buffer.old.glyphs ≡ true → IsOk result }
/// ensures err { OnErr result (buffer.new ≡ buffer.old) }
/// ```
///
/// - `RefusesLength`: `crates/shapers_buffer/specs/Refusals.antt`
/// - `first_round`, `is_whole`, `stays_together`: `crates/shapers_normal/specs/Decomposition.antt`
/// - `normalized`: `crates/shapers_normal/specs/Normalization.antt`
///
/// </details>
///
/// [`Memory`]: crate::ShaperError::Memory
/// [`TooLong`]: crate::ShaperError::TooLong
pub fn normalize<C: NormalizeContext>(
    context: &C,
    rounds: Rounds,
    buffer: &mut Buffer,
) -> Result<(), ShaperError> {
    if number_word(context, buffer) {
        return Ok(());
    }
    let runs = has_rounds(rounds, buffer.glyphs());
    decompose(context, buffer)?;
    if !runs && !has_joiner(buffer.glyphs()) {
        return Ok(());
    }
    let level = buffer.cluster_level();
    let mut later = LaterRounds {
        context,
        level,
        runs,
        len: 0,
    };
    // (a context that panics leaves the empty buffer, and no text with marks half ordered)
    buffer.walk_outside(&mut later);
    buffer.truncate(later.len);
    Ok(())
}

// Whether marks are ordered and composed.
#[inline]
fn has_rounds(rounds: Rounds, glyphs: &[GlyphInfo]) -> bool {
    match rounds {
        Rounds::Always => true,
        Rounds::AsCode => has_mark(&glyphs[glyphs.len().min(1)..]),
    }
}

// Whether one of these glyphs is a mark.
#[inline]
fn has_mark(glyphs: &[GlyphInfo]) -> bool {
    glyphs.iter().any(is_mark)
}

// What follows the first round; it leaves so many glyphs.
struct LaterRounds<'a, C: NormalizeContext> {
    context: &'a C,
    level: BufferClusterLevel,
    runs: bool,
    len: usize,
}

impl<'a, C: NormalizeContext> GlyphWalk for LaterRounds<'a, C> {
    #[inline]
    fn walk(&mut self, glyphs: &mut [GlyphInfo]) {
        self.len = run_later(self.context, self.runs, self.level, glyphs);
    }
}

// Runs what follows the first round. Returns how many glyphs are left, at the front.
fn run_later<C: NormalizeContext>(
    context: &C,
    runs: bool,
    level: BufferClusterLevel,
    glyphs: &mut [GlyphInfo],
) -> usize {
    order_if(runs, context, level, glyphs);
    show_joiners(glyphs);
    if runs && composes(context.normalization_preference()) {
        recompose_in(context, level, glyphs)
    } else {
        glyphs.len()
    }
}

// Orders the marks, if that is wanted.
#[inline]
fn order_if<C: NormalizeContext>(
    runs: bool,
    context: &C,
    level: BufferClusterLevel,
    glyphs: &mut [GlyphInfo],
) {
    if runs {
        order_marks_in(context, level, glyphs);
    }
}

// Whether a shaper wants characters composed.
#[inline]
fn composes(mode: NormalizationMode) -> bool {
    match mode {
        NormalizationMode::NONE => false,
        NormalizationMode::AUTO | NormalizationMode::CD => true,
    }
}

// Whether one of these glyphs is a grapheme joiner.
#[inline]
fn has_joiner(glyphs: &[GlyphInfo]) -> bool {
    glyphs.iter().any(|glyph| glyph.glyph_id == GRAPHEME_JOINER)
}

// Lets lookups pass over the grapheme joiners that kept no marks apart.
fn show_joiners(glyphs: &mut [GlyphInfo]) {
    if !has_joiner(glyphs) {
        return;
    }
    for i in 1..glyphs.len().max(1) - 1 {
        let (before, behind) = (class(&glyphs[i - 1]), class(&glyphs[i + 1]));
        glyphs[i] = pass_over(before, behind, glyphs[i]);
    }
}

// A grapheme joiner between glyphs of these classes, shown if it kept nothing apart.
#[inline]
fn pass_over(before: u8, behind: u8, glyph: GlyphInfo) -> GlyphInfo {
    if glyph.glyph_id == GRAPHEME_JOINER && (behind == 0 || before <= behind) {
        let mut unicode_props = glyph.unicode_props;
        unicode_props.set_hidden(false);
        GlyphInfo {
            unicode_props,
            ..glyph
        }
    } else {
        glyph
    }
}
