// Generated from crates/shapers_indic_initial/src/ot_shaper_indic_initial/pause.rt by rust/erase; edit the source.

//! The pause of the initial reordering.

use super::font_positions::update_consonant_positions;
use super::reordering::InitialOrder;
use super::rules::Rules;
use crate::generated::shapers_base::buffer::{Buffer, ShaperError};
use crate::generated::shapers_base::font::Font;
use crate::generated::shapers_base::plan::Plan;
use crate::generated::shapers_base::plan::ot_category_t::{OT_DOTTEDCIRCLE, OT_Repha};
use crate::generated::shapers_base::plan::ot_position_t::POS_END;
use crate::generated::shapers_indic::ot_shaper_indic::indic_in;
use crate::generated::shapers_syllabic::ot_shaper_syllabic::indic_syllable::{
    BROKEN_CLUSTER, NON_INDIC_CLUSTER,
};
use crate::generated::shapers_syllabic::ot_shaper_syllabic::{
    ScriptCircles, reorder_syllables_by_steps,
};

// The dotted circles of Indic scripts.
const CIRCLES: ScriptCircles = ScriptCircles {
    broken_kind: BROKEN_CLUSTER,
    category: OT_DOTTEDCIRCLE,
    repha: Some(OT_Repha),
    position: Some(POS_END),
};

/// Gives consonants positions by the font and broken syllables their dotted circles, and then
/// reorders each syllable: its base, what goes with which glyph, the order by positions, the masks
/// of the basic features. At the levels that merge, places from the base on that a glyph moved over
/// share one cluster, and where a syllable's clusters are its own no more is merged. Returns
/// whether circles were wanted. Every cluster afterwards is one that the text had. Refuses with
/// [`UnknownSyllable`], before anything changes; with [`TooLong`]; and with [`Memory`], but not where no
/// circle opens. (OpenType, development of Indic scripts.)
///
/// <details><summary>Contract</summary>
///
/// # Contract
///
/// ```text
/// requires kept { is_indic_data plan.now.plan_data ≡ true }
/// requires without_positions { buffer.old.positions ≡ [] }
/// ensures answer { let circles = initial_circles (F.font face.now) buffer.old in
///     IfOk result (λ answer. answer ≡ is_some circles) }
/// ensures ok { OnOk result (InitiallyReordered
///     (F.font face.now) plan.now.ot_map (indic_in plan.now) buffer.old buffer.new) }
/// ensures linked { OnOk result (InitiallyLinked
///     (F.font face.now) plan.now.ot_map (indic_in plan.now) buffer.old buffer.new) }
/// ensures syllables { let font = F.font face.now in
///     let kept = indic_in plan.now in
///     OnOk result (PauseReordered (initial_circles font buffer.old)
///     (order_by_font font plan.now.ot_map kept buffer.old.script)
///     (steps_by_font font plan.now.ot_map kept buffer.old.script) buffer.old buffer.new) }
/// ensures cut { let font = F.font face.now in
///     let kept = indic_in plan.now in
///     OnOk result (PauseCutsAtBorders (initial_circles font buffer.old)
///     (order_by_font font plan.now.ot_map kept buffer.old.script)
///     (steps_by_font font plan.now.ot_map kept buffer.old.script) buffer.old buffer.new) }
/// ensures laws { let font = F.font face.now in
///     let circles = initial_circles font buffer.old in
///     let opened = record buffer.old { glyphs = circled circles buffer.old.glyphs } in
///     let steps = steps_by_font font plan.now.ot_map (indic_in plan.now) buffer.old.script in
///     OnOk result (TextReordered steps opened buffer.new) }
/// ensures merged { OnOk result (InitiallyMerged
///     (F.font face.now) plan.now.ot_map (indic_in plan.now) buffer.old buffer.new) }
/// ensures clusters { OnOk result (NoNewCluster buffer.old.glyphs buffer.new.glyphs) }
/// ensures refusal { let circles = initial_circles (F.font face.now) buffer.old in
///     let opened = circled circles buffer.old.glyphs in
///     Refuses (initial_refusal buffer.old) buffer.old.max_len (length opened) result }
/// ensures err { OnErr result (buffer.new ≡ buffer.old) }
/// ensures without_memory { let circles = initial_circles (F.font face.now) buffer.old in
///     let opened = circled circles buffer.old.glyphs in
///     initial_refusal buffer.old ≡ None → opened ≡ buffer.old.glyphs → IsOk result }
/// ```
///
/// - `Refuses`: `crates/shapers_buffer/specs/Refusals.antt`
/// - `indic_in`, `is_indic_data`: `crates/shapers_indic/specs/Plan.antt`
/// - `InitiallyMerged`: `crates/shapers_indic_initial/specs/InitialLaws.antt`
/// - `InitiallyLinked`, `InitiallyReordered`, `initial_circles`, `initial_refusal`, `order_by_font`, `steps_by_font`: `crates/shapers_indic_initial/specs/InitialPause.antt`
/// - `NoNewCluster`: `crates/shapers_syllabic/specs/CircleLaws.antt`
/// - `circled`: `crates/shapers_syllabic/specs/Circles.antt`
/// - `PauseReordered`: `crates/shapers_syllabic/specs/Reordering.antt`
/// - `PauseCutsAtBorders`, `TextReordered`: `crates/shapers_syllabic/specs/ReorderingLaws.antt`
///
/// </details>
///
/// [`Memory`]: crate::ShaperError::Memory
/// [`TooLong`]: crate::ShaperError::TooLong
/// [`UnknownSyllable`]: crate::ShaperError::UnknownSyllable
pub fn initial_reordering<F: Font>(
    plan: &Plan,
    face: &F,
    buffer: &mut Buffer,
) -> Result<bool, ShaperError> {
    if let Some(place) = buffer.unknown_syllable(NON_INDIC_CLUSTER) {
        return Err(ShaperError::UnknownSyllable(place));
    }
    let circles = CIRCLES.insert(face, buffer)?;
    let rules = Rules {
        plan: indic_in(plan),
        map: &plan.ot_map,
        font: face,
    };
    update_consonant_positions(&rules, buffer);
    let order = InitialOrder { rules: &rules };
    reorder_syllables_by_steps(&order, buffer)?;
    Ok(circles)
}
