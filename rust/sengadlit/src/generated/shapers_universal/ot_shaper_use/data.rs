// Generated from crates/shapers_universal/src/ot_shaper_use/data.rt by rust/erase; edit the source.

//! What the universal shaper keeps in the plan.

use crate::generated::shapers_arabic::ot_shaper_arabic::data_create_arabic;
use crate::generated::shapers_base::buffer::{Script, Tag};
use crate::generated::shapers_base::plan::{ArabicPlan, Plan, PlanData, UniversalPlan};

// The scripts of this shaper whose letters join. (Unicode, ArabicShaping.txt.) A new one is also a
// line in joining_scripts of specs/PlanData.antt and in the row `joining` of proofs/SyllableRows.antt.
const JOINING_SCRIPTS: [Script; 13] = [
    Script(*b"Adlm"),
    Script(*b"Arab"),
    Script(*b"Chrs"),
    Script(*b"Rohg"),
    Script(*b"Mand"),
    Script(*b"Mani"),
    Script(*b"Mong"),
    Script(*b"Nkoo"),
    Script(*b"Ougr"),
    Script(*b"Phag"),
    Script(*b"Phlp"),
    Script(*b"Sogd"),
    Script(*b"Syrc"),
];

/// What the shaper keeps in the plan: the mask of `rphf` and, for a script whose letters join, the
/// plan of Arabic. No mask touches a glyph flag bit. It can't refuse and takes no memory.
///
/// <details><summary>Contract</summary>
///
/// # Contract
///
/// ```text
/// ensures data { let start = plan.now.stretch_start in
///     let breaks = plan.now.break_flags in
///     result ≡ Universal (universal_plan start breaks plan.now.script plan.now.ot_map) }
/// ensures off_flags { AllByRecursion (λ mask. mask % 8 ≡ 0) (masks_stored result) }
/// ```
///
/// - `masks_stored`: `crates/shapers_base/specs/Masks.antt`
/// - `universal_plan`: `crates/shapers_universal/specs/PlanData.antt`
///
/// </details>
pub fn create_data(plan: &Plan) -> PlanData {
    PlanData::Universal(UniversalPlan {
        rphf_mask: plan.ot_map.one_mask(Tag(*b"rphf")),
        arabic_plan: arabic_plan_for(plan),
    })
}

// The plan of Arabic, for a script whose letters join.
#[inline]
fn arabic_plan_for(plan: &Plan) -> Option<ArabicPlan> {
    if has_arabic_joining(plan.script) {
        Some(data_create_arabic(plan))
    } else {
        None
    }
}

// Whether the letters of a script join, where it is known.
#[inline]
fn has_arabic_joining(script: Option<Script>) -> bool {
    match script {
        None => false,
        Some(script) => is_joining(script),
    }
}

// Whether the letters of this script join.
#[inline]
fn is_joining(script: Script) -> bool {
    JOINING_SCRIPTS.contains(&script)
}
