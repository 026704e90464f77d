// Generated from crates/shapers_universal/src/ot_shaper_use/setup.rt by rust/erase; edit the source.

//! Cutting a text into the syllables of the universal shaper.

use super::category;
use super::forms::{flag_forms, set_forms};
use crate::generated::shapers_base::buffer::{
    Buffer, GlyphInfo, ShaperError, Span, first_syllable_len,
};
use crate::generated::shapers_base::plan::{Plan, PlanData};
use crate::generated::shapers_syllabic::ot_shaper_syllabic::use_syllable::BROKEN_CLUSTER;
use crate::generated::shapers_syllabic::ot_shaper_syllabic::{setup_by_bytes, setup_syllables};

/// Cuts the text into the syllables of these spans and flags the inside of each as unsafe to break.
/// Gives the mask of `rphf` to the first glyph of each syllable if it is a reph, else to its first
/// three, and, where the plan has no plan of Arabic, the masks of forms by the places of syllables,
/// with what the plan's `break_flags` flag by them.
/// Refuses with [`SpansDontCover`] where a span is empty or the lengths don't add up to the buffer's.
/// It takes no memory, leaves the clusters as they are and only adds glyph flags.
///
/// # Errors
///
/// [`SpansDontCover`]; nothing has changed then.
///
/// # Panics
///
/// Where the plan has no data of the universal shaper.
///
/// <details><summary>Contract</summary>
///
/// # Contract
///
/// ```text
/// requires data { is_universal plan.now.plan_data ≡ true }
/// requires kinds { All (λ span. span.kind ≤ 15) spans.now }
/// ensures refusal { RefusesInput (spans_refusal spans.now buffer.old) result }
/// ensures ok { let kept = plan.now.plan_data in
///     let setup = syllables_setup kept plan.now.ot_map spans.now buffer.old in
///     let flagged = with_forms_flagged plan.now.break_flags kept plan.now.ot_map setup in
///     OnOk result (buffer.new ≡ flagged) }
/// ensures cut { let breaks = plan.now.break_flags in
///     let kept = plan.now.plan_data in
///     OnOk result
///     (UniversalSetupCutsAtSpans breaks kept plan.now.ot_map spans.now buffer.old buffer.new) }
/// ensures clusters { clusters buffer.new.glyphs ≡ clusters buffer.old.glyphs }
/// ensures flags { OnOk result (OnlyFlagsAdded buffer.old.glyphs buffer.new.glyphs) }
/// ensures err { OnErr result (buffer.new ≡ buffer.old) }
/// ```
///
/// - `clusters`: `crates/shapers_buffer/specs/Glyph.antt`
/// - `RefusesInput`: `crates/shapers_buffer/specs/Refusals.antt`
/// - `spans_refusal`: `crates/shapers_buffer/specs/Syllables.antt`
/// - `OnlyFlagsAdded`: `crates/shapers_clusters/specs/FlagLaw.antt`
/// - `is_universal`: `crates/shapers_universal/specs/PlanData.antt`
/// - `UniversalSetupCutsAtSpans`: `crates/shapers_universal/specs/UniversalCuts.antt`
/// - `syllables_setup`, `with_forms_flagged`: `crates/shapers_universal/specs/UniversalSyllables.antt`
///
/// </details>
///
/// [`SpansDontCover`]: crate::ShaperError::SpansDontCover
#[inline]
pub fn setup_syllables_use(
    plan: &Plan,
    spans: &[Span],
    buffer: &mut Buffer,
) -> Result<(), ShaperError> {
    setup_syllables(spans, BROKEN_CLUSTER, buffer)?;
    set_masks(plan, buffer);
    Ok(())
}

/// Sets up a text whose glyphs have their syllable bytes already, with the flags, marks and masks
/// of [`setup_syllables_use`]. It takes no memory, leaves the clusters as they are and only adds
/// glyph flags.
///
/// # Panics
///
/// Where the plan has no data of the universal shaper.
///
/// <details><summary>Contract</summary>
///
/// # Contract
///
/// ```text
/// requires { is_universal plan.now.plan_data ≡ true }
/// ensures setup { let kept = plan.now.plan_data in
///     let setup = setup_by_its_bytes kept plan.now.ot_map buffer.old in
///     buffer.new ≡ with_forms_flagged plan.now.break_flags kept plan.now.ot_map setup }
/// ensures flags { OnlyFlagsAdded buffer.old.glyphs buffer.new.glyphs }
/// ```
///
/// - `OnlyFlagsAdded`: `crates/shapers_clusters/specs/FlagLaw.antt`
/// - `is_universal`: `crates/shapers_universal/specs/PlanData.antt`
/// - `setup_by_its_bytes`, `with_forms_flagged`: `crates/shapers_universal/specs/UniversalSyllables.antt`
///
/// </details>
#[inline]
pub fn setup_syllables_use_by_bytes(plan: &Plan, buffer: &mut Buffer) {
    setup_by_bytes(BROKEN_CLUSTER, buffer);
    set_masks(plan, buffer);
}

// Gives each syllable its masks, and flags what the plan's choice adds.
#[inline]
fn set_masks(plan: &Plan, buffer: &mut Buffer) {
    match &plan.plan_data {
        PlanData::Universal(universal_plan) => {
            set_rphf(universal_plan.rphf_mask, buffer);
            if universal_plan.arabic_plan.is_none() {
                set_forms(&plan.ot_map, buffer);
                flag_forms(plan.break_flags, &plan.ot_map, buffer);
            }
        }
        _ => unreachable!("the plan has no data of the universal shaper"),
    }
}

// Gives each syllable the mask of `rphf`.
#[inline]
fn set_rphf(mask: u32, buffer: &mut Buffer) {
    if mask == 0 {
        return;
    }
    buffer.with_glyphs_mut(|glyphs| set_rphf_in(mask, glyphs));
}

// Gives each syllable of these glyphs the mask of `rphf`.
#[inline]
fn set_rphf_in(mask: u32, glyphs: &mut [GlyphInfo]) {
    let mut start = 0;
    while start < glyphs.len() {
        let end = start + first_syllable_len(&glyphs[start..]);
        set_rphf_at(mask, glyphs, start, end);
        start = end;
    }
}

// Gives the syllable from `start` to `end` the mask of `rphf`.
#[inline]
fn set_rphf_at(mask: u32, glyphs: &mut [GlyphInfo], start: usize, end: usize) {
    set_rphf_of(mask, &mut glyphs[start..end]);
}

// Gives a syllable the mask of `rphf`.
#[inline]
fn set_rphf_of(mask: u32, syllable: &mut [GlyphInfo]) {
    let len = reph_len(syllable);
    add_mask(&mut syllable[..len], mask);
}

// How many glyphs in front get the mask of `rphf`: a reph alone, else three or all. Fonts make
// a reph of RA and a halant, or of these and a joiner.
#[inline]
fn reph_len(syllable: &[GlyphInfo]) -> usize {
    match syllable.first() {
        None => 0,
        Some(glyph) if glyph.category == category::R => 1,
        Some(_) => 3.min(syllable.len()),
    }
}

// Gives all these glyphs the bits of a mask besides their own.
#[inline]
fn add_mask(glyphs: &mut [GlyphInfo], mask: u32) {
    for glyph in glyphs.iter_mut() {
        glyph.mask |= mask;
    }
}
