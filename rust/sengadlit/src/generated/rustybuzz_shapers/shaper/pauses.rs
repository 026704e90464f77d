// Generated from crates/rustybuzz_shapers/src/shaper/pauses.rt by rust/erase; edit the source.

//! The pauses behind one dispatcher.

use crate::generated::shapers_base::buffer::{Buffer, ShaperError, Span};
use crate::generated::shapers_base::font::Font;
use crate::generated::shapers_base::plan::{Pause, Plan, PlanData};
use crate::generated::shapers_indic_final::ot_shaper_indic_final;
use crate::generated::shapers_indic_initial::ot_shaper_indic_initial;
use crate::generated::shapers_khmer::ot_shaper_khmer;
use crate::generated::shapers_myanmar::ot_shaper_myanmar;
use crate::generated::shapers_stretch::ot_shaper_arabic_stretch;
use crate::generated::shapers_syllabic::ot_shaper_syllabic::{
    clear_substitution_flags, clear_syllables, indic_syllable, khmer_syllable, myanmar_syllable,
    setup_syllables,
};
use crate::generated::shapers_universal::ot_shaper_use;
use core::mem;

/// Does what a shaper does between two stages of substitution, and returns whether dotted circles
/// were wanted. Spans are read by the pauses that set syllables alone: those refuse with
/// [`SpansDontCover`] where a span is empty or they don't add up. Reorderings refuse unknown kinds of
/// syllables, but for the universal shaper's, and then as circles do. A refused pause leaves the
/// buffer as it was. A reordering leaves the placement list empty, so that each place reads 0; the
/// other pauses leave it as it was.
///
/// # Errors
///
/// [`SpansDontCover`] of a pause that sets syllables; [`UnknownSyllable`], [`TooLong`] and [`Memory`]
/// of one that reorders. Nothing has changed then.
///
/// # Panics
///
/// Where the plan has no data of the shaper that the pause belongs to. May panic, or rewrite the text in an unspecified
/// way, where the buffer has positions or the kind of a span is above 15.
///
/// <details><summary>Contract</summary>
///
/// # Contract
///
/// ```text
/// requires without_positions { buffer.old.positions ≡ [] }
/// requires kinds { All (λ span. span.kind ≤ 15) spans.now }
/// requires data { PauseFits pause plan.now }
/// ensures answer { let circles = pause_circles pause plan.now (F.font face.now) buffer.old in
///     IfOk result (λ answer. answer ≡ is_some circles) }
/// ensures ok { let font = F.font face.now in
///     OnOk result (Paused pause plan.now font spans.now buffer.old buffer.new) }
/// ensures laws { let font = F.font face.now in
///     OnOk result (PauseKeeps pause plan.now font spans.now buffer.old buffer.new) }
/// ensures refusal { RefusesPause pause (F.font face.now) spans.now buffer.old result }
/// ensures err { OnErr result (buffer.new ≡ buffer.old) }
/// ```
///
/// - `PauseFits`, `PauseKeeps`, `Paused`, `RefusesPause`, `pause_circles`: `crates/rustybuzz_shapers/specs/Pauses.antt`
///
/// </details>
///
/// [`Memory`]: crate::ShaperError::Memory
/// [`SpansDontCover`]: crate::ShaperError::SpansDontCover
/// [`TooLong`]: crate::ShaperError::TooLong
/// [`UnknownSyllable`]: crate::ShaperError::UnknownSyllable
#[inline]
pub fn run_pause<F: Font>(
    pause: Pause,
    plan: &Plan,
    face: &F,
    spans: &[Span],
    buffer: &mut Buffer,
) -> Result<bool, ShaperError> {
    match pause {
        // (each is one loop, so it isn't behind the frame that the others need)
        Pause::RecordStch => ot_shaper_arabic_stretch::record_stch(plan, buffer),
        Pause::RecordRphf => ot_shaper_use::record_rphf(plan, buffer),
        Pause::RecordPref => ot_shaper_use::record_pref(buffer),
        Pause::SyllabicClearVar => clear_syllables(buffer),
        Pause::ClearSubstitutionFlags => clear_substitution_flags(buffer),
        Pause::ArabicFallbackShape => {}
        Pause::SetupSyllablesIndic
        | Pause::SetupSyllablesKhmer
        | Pause::SetupSyllablesMyanmar
        | Pause::SetupSyllablesUse
        | Pause::InitialReordering
        | Pause::ReorderKhmer
        | Pause::ReorderMyanmar
        | Pause::ReorderUse
        | Pause::FinalReordering => {
            return run_syllabic_pause(pause, plan, face, spans, buffer);
        }
    }
    Ok(false)
}

// Runs a pause that sets up or reorders syllables.
#[inline(never)]
fn run_syllabic_pause<F: Font>(
    pause: Pause,
    plan: &Plan,
    face: &F,
    spans: &[Span],
    buffer: &mut Buffer,
) -> Result<bool, ShaperError> {
    match pause {
        Pause::SetupSyllablesIndic => {
            setup_syllables(spans, indic_syllable::BROKEN_CLUSTER, buffer)?;
        }
        Pause::SetupSyllablesKhmer => {
            setup_syllables(spans, khmer_syllable::BROKEN_CLUSTER, buffer)?;
        }
        Pause::SetupSyllablesMyanmar => {
            setup_syllables(spans, myanmar_syllable::BROKEN_CLUSTER, buffer)?;
        }
        Pause::SetupSyllablesUse => ot_shaper_use::setup_syllables_use(plan, spans, buffer)?,
        Pause::InitialReordering => {
            if !face.may_panic() {
                return ot_shaper_indic_initial::initial_reordering(plan, face, buffer);
            }
            // (a font that panics leaves the empty buffer, and no text that is half reordered)
            let empty = Buffer::new(buffer.alloc(), buffer.max_len());
            let mut text = mem::replace(buffer, empty);
            let circles = ot_shaper_indic_initial::initial_reordering(plan, face, &mut text);
            *buffer = text;
            return circles;
        }
        Pause::ReorderKhmer => return ot_shaper_khmer::reorder_khmer(plan, face, buffer),
        Pause::ReorderMyanmar => return ot_shaper_myanmar::reorder_myanmar(face, buffer),
        Pause::ReorderUse => return ot_shaper_use::reorder_use(face, buffer),
        Pause::FinalReordering => ot_shaper_indic_final::final_reordering(plan, face, buffer),
        Pause::RecordStch
        | Pause::RecordRphf
        | Pause::RecordPref
        | Pause::SyllabicClearVar
        | Pause::ClearSubstitutionFlags
        | Pause::ArabicFallbackShape => unreachable!("the pause sets up or reorders no syllables"),
    }
    Ok(false)
}

/// Whether the pause can change a buffer under this plan. False for the pauses that do nothing under
/// it, whatever the buffer: fallback shaping, tiles where the font stretches no marks, and the
/// record of `rphf` where the plan has no mask for it.
///
/// # Panics
///
/// Where the plan has no data of the shaper that the pause belongs to.
///
/// <details><summary>Contract</summary>
///
/// # Contract
///
/// ```text
/// requires { PauseFits pause plan.now }
/// ensures changes { result ≡ may_change pause plan.now }
/// ensures stays { result ≡ false → PauseStays pause plan.now }
/// ```
///
/// - `PauseFits`, `PauseStays`, `may_change`: `crates/rustybuzz_shapers/specs/Pauses.antt`
///
/// </details>
#[inline]
pub fn pause_may_change(pause: Pause, plan: &Plan) -> bool {
    match pause {
        Pause::RecordStch => stretches_marks(&plan.plan_data),
        Pause::RecordRphf => has_rphf_mask(&plan.plan_data),
        Pause::ArabicFallbackShape => false,
        Pause::SetupSyllablesIndic
        | Pause::SetupSyllablesKhmer
        | Pause::SetupSyllablesMyanmar
        | Pause::SetupSyllablesUse
        | Pause::InitialReordering
        | Pause::ReorderKhmer
        | Pause::ReorderMyanmar
        | Pause::ReorderUse
        | Pause::FinalReordering
        | Pause::RecordPref
        | Pause::SyllabicClearVar
        | Pause::ClearSubstitutionFlags => true,
    }
}

// Whether the font stretches marks, as Arabic keeps it in the plan.
#[inline]
fn stretches_marks(plan_data: &PlanData) -> bool {
    match plan_data {
        PlanData::Arabic(arabic_plan) => arabic_plan.has_stch,
        _ => false,
    }
}

// Whether the universal shaper's plan has a mask for `rphf`.
#[inline]
fn has_rphf_mask(plan_data: &PlanData) -> bool {
    match plan_data {
        PlanData::Universal(universal_plan) => universal_plan.rphf_mask != 0,
        _ => false,
    }
}
