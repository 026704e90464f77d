// Generated from crates/shapers_arabic/src/ot_shaper_arabic/data.rt by rust/erase; edit the source.

//! What the shaper keeps in the plan.

use crate::generated::shapers_base::buffer::Tag;
use crate::generated::shapers_base::plan::{ArabicPlan, Plan, PlanData};

/// What the shaper keeps in the plan: the masks of the joining forms, which touch no glyph flag
/// bit, whether marks stretch, where these begin, and which breaks are flagged.
///
/// <details><summary>Contract</summary>
///
/// # Contract
///
/// ```text
/// ensures data { let start = plan.now.stretch_start in
///     let breaks = plan.now.break_flags in
///     result ≡ arabic_plan start breaks plan.now.ot_map }
/// ensures off_flags { AllByRecursion (λ mask. mask % 8 ≡ 0) result.mask_array }
/// ```
///
/// - `arabic_plan`: `crates/shapers_arabic/specs/PlanData.antt`
///
/// </details>
pub fn data_create_arabic(plan: &Plan) -> ArabicPlan {
    let map = &plan.ot_map;
    ArabicPlan {
        mask_array: [
            map.one_mask(Tag(*b"isol")),
            map.one_mask(Tag(*b"fina")),
            map.one_mask(Tag(*b"fin2")),
            map.one_mask(Tag(*b"fin3")),
            map.one_mask(Tag(*b"medi")),
            map.one_mask(Tag(*b"med2")),
            map.one_mask(Tag(*b"init")),
            0,
        ],
        has_stch: map.one_mask(Tag(*b"stch")) != 0,
        stretch_start: plan.stretch_start,
        break_flags: plan.break_flags,
    }
}

/// What the shaper keeps in the plan. It can't refuse and takes no memory.
///
/// <details><summary>Contract</summary>
///
/// # Contract
///
/// ```text
/// ensures data { let start = plan.now.stretch_start in
///     let breaks = plan.now.break_flags in
///     result ≡ PlanData.Arabic (arabic_plan start breaks plan.now.ot_map) }
/// ensures off_flags { AllByRecursion (λ mask. mask % 8 ≡ 0) (masks_of result) }
/// ```
///
/// - `arabic_plan`, `masks_of`: `crates/shapers_arabic/specs/PlanData.antt`
///
/// </details>
pub fn create_data(plan: &Plan) -> PlanData {
    PlanData::Arabic(data_create_arabic(plan))
}
