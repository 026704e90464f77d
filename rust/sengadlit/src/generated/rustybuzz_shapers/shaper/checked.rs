// Generated from crates/rustybuzz_shapers/src/shaper/checked.rt by rust/erase; edit the source.

//! Calls for callers that can't know whether a hook's conditions are met. Each tests them in the
//! order of `Condition` before it writes anything, and returns the first that isn't met; the buffer
//! is then unchanged. The hooks that aren't here have no conditions.

use super::conditions::{are_glyph_numbers, is_arabic};
use super::{
    Shaper, has_positions, kinds_fit, lacks_positions, pause_fits, run_pause, setup_syllables_found,
};
use crate::generated::shapers_base::buffer::{Buffer, ShaperError, Span};
use crate::generated::shapers_base::font::{Font, Tables};
use crate::generated::shapers_base::plan::{Pause, Plan, Preprocess};

/// A condition that a hook or pause requires of its caller.
#[non_exhaustive]
#[derive(Clone, Copy, Debug, PartialEq, Eq, Hash, PartialOrd, Ord)]
pub enum Condition {
    /// Before positioning there are no positions; for [`postprocess_glyphs`] there is one per glyph.
    ///
    /// [`postprocess_glyphs`]: crate::Shaper::postprocess_glyphs
    Positions,
    /// The range of marks rises and lies within the buffer.
    Range,
    /// The range of marks is short enough: for Arabic at most 32 places.
    Marks,
    /// The plan's data are of the kind that is read.
    PlanData,
    /// The glyphs are characters where masks are set; those of a font, at most 65535, where marks
    /// stretch.
    Glyphs,
    /// Each span's kind is at most 15.
    SpanKinds,
}

/// Why a checked call did nothing. The buffer is unchanged.
#[derive(Clone, Copy, Debug, PartialEq, Eq, Hash)]
pub enum CallError {
    /// A condition isn't met: the first one, in the order of [`Condition`].
    ///
    /// [`Condition`]: crate::shaper::checked::Condition
    Condition(Condition),
    /// All conditions are met, and the hook refused.
    Refused(ShaperError),
}

impl From<Condition> for CallError {
    #[inline]
    fn from(condition: Condition) -> Self {
        CallError::Condition(condition)
    }
}

impl From<ShaperError> for CallError {
    #[inline]
    fn from(refusal: ShaperError) -> Self {
        CallError::Refused(refusal)
    }
}

impl Shaper {
    /// Tests the condition of [`preprocess_text`], in constant time, and calls it.
    ///
    /// # Errors
    ///
    /// The first condition that isn't met, or the refusal of the call; nothing has changed
    /// then.
    ///
    /// <details><summary>Contract</summary>
    ///
    /// # Contract
    ///
    /// ```text
    /// ensures conditions { StopsAt (preprocess_asks buffer.old) result }
    /// ensures answer { IfOk result (λ answer. answer ≡ preprocess_answer self) }
    /// ensures ok { let font = F.font face.now in
    ///     OnOk result (Preprocessed self plan.now font buffer.old buffer.new) }
    /// ensures laws { let font = F.font face.now in
    ///     OnOk result (PreprocessKeeps self plan.now font buffer.old buffer.new) }
    /// ensures refusal { AsRefused (RefusesPreprocess self (F.font face.now) buffer.old) result }
    /// ensures err { OnErr result (buffer.new ≡ buffer.old) }
    /// ```
    ///
    /// - `AsRefused`, `StopsAt`, `preprocess_asks`: `crates/rustybuzz_shapers/specs/Checked.antt`
    /// - `PreprocessKeeps`, `Preprocessed`, `RefusesPreprocess`, `preprocess_answer`: `crates/rustybuzz_shapers/specs/Hooks.antt`
    ///
    /// </details>
    ///
    /// [`preprocess_text`]: crate::Shaper::preprocess_text
    #[inline]
    pub fn checked_preprocess_text<F: Font>(
        self,
        plan: &Plan,
        face: &F,
        buffer: &mut Buffer,
    ) -> Result<Option<Preprocess>, CallError> {
        check(lacks_positions(buffer), Condition::Positions)?;
        Ok(self.preprocess_text(plan, face, buffer)?)
    }

    /// Tests the conditions of [`setup_masks`] and calls it. The test takes one pass over the glyphs
    /// for Arabic, and for the universal shaper where letters join; else constant time.
    ///
    /// # Errors
    ///
    /// The first condition that isn't met; nothing has changed then.
    ///
    /// <details><summary>Contract</summary>
    ///
    /// # Contract
    ///
    /// ```text
    /// ensures conditions { StopsAt (masks_ask self plan.now buffer.old) result }
    /// ensures answer { let there = has_hook self SetupMasks in
    ///     IfOk result (λ answer. is_some answer ≡ there) }
    /// ensures masks { let tables = T.tables tables.now in
    ///     OnOk result (MasksSet self plan.now tables buffer.old buffer.new) }
    /// ensures flags { OnOk result (OnlyFlagsAdded buffer.old.glyphs buffer.new.glyphs) }
    /// ensures refusal { AsRefused IsOk result }
    /// ensures err { OnErr result (buffer.new ≡ buffer.old) }
    /// ```
    ///
    /// - `AsRefused`, `StopsAt`, `masks_ask`: `crates/rustybuzz_shapers/specs/Checked.antt`
    /// - `MasksSet`: `crates/rustybuzz_shapers/specs/Hooks.antt`
    /// - `has_hook`: `crates/rustybuzz_shapers/specs/Standing.antt`
    /// - `OnlyFlagsAdded`: `crates/shapers_clusters/specs/FlagLaw.antt`
    ///
    /// </details>
    ///
    /// [`setup_masks`]: crate::Shaper::setup_masks
    #[inline]
    pub fn checked_setup_masks<F: Font, T: Tables>(
        self,
        plan: &Plan,
        face: &F,
        tables: &T,
        buffer: &mut Buffer,
    ) -> Result<Option<()>, CallError> {
        self.check_masks(plan, buffer)?;
        Ok(self.setup_masks(plan, face, tables, buffer))
    }

    /// Tests the conditions of [`reorder_marks`], in constant time, and calls it.
    ///
    /// # Errors
    ///
    /// The first condition that isn't met; nothing has changed then.
    ///
    /// <details><summary>Contract</summary>
    ///
    /// # Contract
    ///
    /// ```text
    /// ensures conditions { StopsAt (marks_ask self start end buffer.old) result }
    /// ensures answer { let there = has_hook self ReorderMarks in
    ///     IfOk result (λ answer. is_some answer ≡ there) }
    /// ensures marks { OnOk result (MarksReordered self start end buffer.old buffer.new) }
    /// ensures laws { OnOk result (MarksKeep self start end buffer.old buffer.new) }
    /// ensures refusal { AsRefused IsOk result }
    /// ensures err { OnErr result (buffer.new ≡ buffer.old) }
    /// ```
    ///
    /// - `AsRefused`, `StopsAt`, `marks_ask`: `crates/rustybuzz_shapers/specs/Checked.antt`
    /// - `MarksKeep`, `MarksReordered`: `crates/rustybuzz_shapers/specs/Hooks.antt`
    /// - `has_hook`: `crates/rustybuzz_shapers/specs/Standing.antt`
    ///
    /// </details>
    ///
    /// [`reorder_marks`]: crate::Shaper::reorder_marks
    #[inline]
    pub fn checked_reorder_marks(
        self,
        plan: &Plan,
        buffer: &mut Buffer,
        start: usize,
        end: usize,
    ) -> Result<Option<()>, CallError> {
        self.check_marks(buffer, start, end)?;
        Ok(self.reorder_marks(plan, buffer, start, end))
    }

    /// Tests the conditions of [`postprocess_glyphs`] and calls it. The test takes one pass over the
    /// glyphs for Arabic, else constant time.
    ///
    /// # Errors
    ///
    /// The first condition that isn't met, or the refusal of the call; nothing has changed
    /// then.
    ///
    /// <details><summary>Contract</summary>
    ///
    /// # Contract
    ///
    /// ```text
    /// ensures conditions { StopsAt (postprocess_asks self plan.now buffer.old) result }
    /// ensures answer { let there = has_hook self PostprocessGlyphs in
    ///     IfOk result (λ answer. is_some answer ≡ there) }
    /// ensures ok { let font = F.font face.now in
    ///     OnOk result (Postprocessed self plan.now font buffer.old buffer.new) }
    /// ensures laws { let font = F.font face.now in
    ///     OnOk result (PostprocessKeeps self plan.now font buffer.old buffer.new) }
    /// ensures longer { let added = glyphs_added self (F.font face.now) buffer.old in
    ///     OnOk result (length buffer.new.glyphs ≡ length buffer.old.glyphs + added) }
    /// ensures refusal { let font = F.font face.now in
    ///     AsRefused (RefusesPostprocess self plan.now font buffer.old) result }
    /// ensures err { OnErr result (buffer.new ≡ buffer.old) }
    /// ```
    ///
    /// - `AsRefused`, `StopsAt`, `postprocess_asks`: `crates/rustybuzz_shapers/specs/Checked.antt`
    /// - `PostprocessKeeps`, `Postprocessed`, `RefusesPostprocess`: `crates/rustybuzz_shapers/specs/Hooks.antt`
    /// - `has_hook`: `crates/rustybuzz_shapers/specs/Standing.antt`
    /// - `glyphs_added`: `crates/rustybuzz_shapers/specs/Stretched.antt`
    ///
    /// </details>
    ///
    /// [`postprocess_glyphs`]: crate::Shaper::postprocess_glyphs
    #[inline]
    pub fn checked_postprocess_glyphs<F: Font>(
        self,
        plan: &Plan,
        face: &F,
        buffer: &mut Buffer,
    ) -> Result<Option<()>, CallError> {
        self.check_postprocess(plan, buffer)?;
        Ok(self.postprocess_glyphs(plan, face, buffer)?)
    }

    // The first condition of `setup_masks` that isn't met.
    #[inline]
    fn check_masks(self, plan: &Plan, buffer: &Buffer) -> Result<(), Condition> {
        check(lacks_positions(buffer), Condition::Positions)?;
        check(self.plan_fits(plan), Condition::PlanData)?;
        check(self.glyphs_fit(plan, buffer), Condition::Glyphs)
    }

    // The first condition of `reorder_marks` that isn't met.
    #[inline]
    fn check_marks(self, buffer: &Buffer, start: usize, end: usize) -> Result<(), Condition> {
        check(lacks_positions(buffer), Condition::Positions)?;
        check(start <= end && end <= buffer.len(), Condition::Range)?;
        check(self.marks_fit(start, end), Condition::Marks)
    }

    // The first condition of `postprocess_glyphs` that isn't met.
    #[inline]
    fn check_postprocess(self, plan: &Plan, buffer: &Buffer) -> Result<(), Condition> {
        check(has_positions(buffer), Condition::Positions)?;
        match self {
            Self::Arabic => {
                check(is_arabic(&plan.plan_data), Condition::PlanData)?;
                check(are_glyph_numbers(buffer.glyphs()), Condition::Glyphs)
            }
            Self::Hangul
            | Self::Hebrew
            | Self::Indic
            | Self::Khmer
            | Self::Myanmar
            | Self::MyanmarZawgyi
            | Self::Thai
            | Self::Universal => Ok(()),
        }
    }
}

/// Tests the conditions of [`run_pause`], in one pass over the spans, and calls it.
///
/// # Errors
///
/// The first condition that isn't met, or the refusal of the pause; nothing has changed then.
///
/// <details><summary>Contract</summary>
///
/// # Contract
///
/// ```text
/// ensures conditions { StopsAt (pause_asks pause plan.now spans.now buffer.old) result }
/// ensures answer { let circles = pause_circles pause plan.now (F.font face.now) buffer.old in
///     IfOk result (λ answer. answer ≡ is_some circles) }
/// ensures ok { let font = F.font face.now in
///     OnOk result (Paused pause plan.now font spans.now buffer.old buffer.new) }
/// ensures laws { let font = F.font face.now in
///     OnOk result (PauseKeeps pause plan.now font spans.now buffer.old buffer.new) }
/// ensures refusal { let font = F.font face.now in
///     AsRefused (RefusesPause pause font spans.now buffer.old) result }
/// ensures err { OnErr result (buffer.new ≡ buffer.old) }
/// ```
///
/// - `AsRefused`, `StopsAt`, `pause_asks`: `crates/rustybuzz_shapers/specs/Checked.antt`
/// - `PauseKeeps`, `Paused`, `RefusesPause`, `pause_circles`: `crates/rustybuzz_shapers/specs/Pauses.antt`
///
/// </details>
///
/// [`run_pause`]: crate::run_pause
#[inline]
pub fn checked_run_pause<F: Font>(
    pause: Pause,
    plan: &Plan,
    face: &F,
    spans: &[Span],
    buffer: &mut Buffer,
) -> Result<bool, CallError> {
    check_pause(pause, plan, spans, buffer)?;
    Ok(run_pause(pause, plan, face, spans, buffer)?)
}

/// Tests the conditions of [`run_pause`], in constant time, and runs the pause. The syllables that it
/// sets up are found by its grammar: that is never refused and takes no memory.
///
/// # Errors
///
/// The first condition that isn't met, or the refusal of a pause that reorders; nothing has changed
/// then.
///
/// <details><summary>Contract</summary>
///
/// # Contract
///
/// ```text
/// ensures conditions { StopsAt (pause_asks pause plan.now [] buffer.old) result }
/// ensures answer { let circles = pause_circles pause plan.now (F.font face.now) buffer.old in
///     IfOk result (λ answer. answer ≡ is_some circles) }
/// ensures ok { OnOk result (PauseRun pause plan.now (F.font face.now) buffer.old buffer.new) }
/// ensures refusal { let font = F.font face.now in
///     AsRefused (RefusesFound pause font buffer.old) result }
/// ensures err { OnErr result (buffer.new ≡ buffer.old) }
/// ```
///
/// - `AsRefused`, `StopsAt`, `pause_asks`: `crates/rustybuzz_shapers/specs/Checked.antt`
/// - `PauseRun`, `RefusesFound`: `crates/rustybuzz_shapers/specs/FoundSyllables.antt`
/// - `pause_circles`: `crates/rustybuzz_shapers/specs/Pauses.antt`
///
/// </details>
///
/// [`run_pause`]: crate::run_pause
#[inline]
pub fn checked_run_pause_found<F: Font>(
    pause: Pause,
    plan: &Plan,
    face: &F,
    buffer: &mut Buffer,
) -> Result<bool, CallError> {
    check_pause(pause, plan, &[], buffer)?;
    if setup_syllables_found(pause, plan, buffer) {
        return Ok(false);
    }
    Ok(run_pause(pause, plan, face, &[], buffer)?)
}

// The first condition of `run_pause` that isn't met.
#[inline]
fn check_pause(
    pause: Pause,
    plan: &Plan,
    spans: &[Span],
    buffer: &Buffer,
) -> Result<(), Condition> {
    check(lacks_positions(buffer), Condition::Positions)?;
    check(pause_fits(pause, plan), Condition::PlanData)?;
    check(kinds_fit(spans), Condition::SpanKinds)
}

// The condition, unless it is met.
#[inline]
fn check(is_met: bool, condition: Condition) -> Result<(), Condition> {
    if is_met { Ok(()) } else { Err(condition) }
}
