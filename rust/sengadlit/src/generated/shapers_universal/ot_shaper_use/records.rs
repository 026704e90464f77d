// Generated from crates/shapers_universal/src/ot_shaper_use/records.rt by rust/erase; edit the source.

//! What lookups did, kept as categories for the reordering.

use super::category;
use super::syllable_walk::{FrontChange, change_fronts};
use crate::generated::shapers_base::buffer::{Buffer, GlyphInfo};
use crate::generated::shapers_base::plan::{Plan, PlanData};

/// Among the leading glyphs of each syllable that have the mask of `rphf`, the first that a lookup
/// put in becomes a reph. It takes no memory.
///
/// <details><summary>Contract</summary>
///
/// # Contract
///
/// ```text
/// requires { is_universal plan.now.plan_data ≡ true }
/// ensures { buffer.new ≡ with_rphf_recorded (rphf_of plan.now.plan_data) buffer.old }
/// ```
///
/// - `is_universal`, `rphf_of`: `crates/shapers_universal/specs/PlanData.antt`
/// - `with_rphf_recorded`: `crates/shapers_universal/specs/UniversalSyllables.antt`
///
/// </details>
#[inline]
pub fn record_rphf(plan: &Plan, buffer: &mut Buffer) {
    match &plan.plan_data {
        PlanData::Universal(universal_plan) => {
            // no glyph has the mask of a feature that the font lacks
            if universal_plan.rphf_mask == 0 {
                return;
            }
            let mask = universal_plan.rphf_mask;
            buffer.with_glyphs_mut(|glyphs| record_rphf_in(mask, glyphs));
        }
        _ => unreachable!("the plan has no data of the universal shaper"),
    }
}

/// In each syllable the first glyph that a lookup put in becomes one that stands before the base:
/// what `pref` made is drawn there, as a vowel before the base is. It takes no memory.
///
/// <details><summary>Contract</summary>
///
/// # Contract
///
/// ```text
/// ensures { buffer.new ≡ with_pref_recorded buffer.old }
/// ```
///
/// - `with_pref_recorded`: `crates/shapers_universal/specs/UniversalSyllables.antt`
///
/// </details>
#[inline]
pub fn record_pref(buffer: &mut Buffer) {
    buffer.with_glyphs_mut(record_pref_in);
}

/// `record_rphf` for the syllables of a slice, where `mask` is that of `rphf`.
///
/// <details><summary>Contract</summary>
///
/// # Contract
///
/// ```text
/// ensures { glyphs.new ≡ flat_map (rphf_recorded mask) (syllables glyphs.old) }
/// ```
///
/// - `syllables`: `crates/shapers_buffer/specs/Syllables.antt`
/// - `rphf_recorded`: `crates/shapers_universal/specs/UniversalSyllables.antt`
///
/// </details>
#[inline]
pub fn record_rphf_in(mask: u32, glyphs: &mut [GlyphInfo]) {
    change_fronts(&RecordRphf { mask }, glyphs);
}

/// In each syllable of a slice the first glyph that a lookup put in becomes one that stands before
/// the base.
///
/// <details><summary>Contract</summary>
///
/// # Contract
///
/// ```text
/// ensures { glyphs.new ≡ flat_map (first_recorded VPre) (syllables glyphs.old) }
/// ```
///
/// - `syllables`: `crates/shapers_buffer/specs/Syllables.antt`
/// - `first_recorded`: `crates/shapers_universal/specs/UniversalSyllables.antt`
///
/// </details>
#[inline]
pub fn record_pref_in(glyphs: &mut [GlyphInfo]) {
    change_fronts(&RecordPref, glyphs);
}

// The record of `rphf`.
#[derive(Clone, Copy)]
struct RecordRphf {
    mask: u32,
}

impl FrontChange for RecordRphf {
    #[inline]
    fn change(&self, glyph: &mut GlyphInfo) -> bool {
        glyph.mask & self.mask != 0 && record_glyph(glyph, category::R)
    }
}

// The record of `pref`.
#[derive(Clone, Copy)]
struct RecordPref;

impl FrontChange for RecordPref {
    #[inline]
    fn change(&self, glyph: &mut GlyphInfo) -> bool {
        record_glyph(glyph, category::VPre)
    }
}

// Gives the glyph another category if a lookup put it in, and returns whether none did.
#[inline]
fn record_glyph(glyph: &mut GlyphInfo, category: u8) -> bool {
    if !glyph.glyph_props.is_substituted() {
        return true;
    }
    glyph.category = category;
    false
}
