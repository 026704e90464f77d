// Generated from crates/shapers_khmer/src/ot_shaper_khmer/pause.rt by rust/erase; edit the source.

//! The reordering pause of Khmer.

use super::khmer_feature::{ABVF, BLWF, CFAR, PREF, PSTF};
use super::reordering::KhmerOrder;
use crate::generated::shapers_base::buffer::{Buffer, ShaperError};
use crate::generated::shapers_base::font::Font;
use crate::generated::shapers_base::plan::ot_category_t::{OT_DOTTEDCIRCLE, OT_Repha};
use crate::generated::shapers_base::plan::{Plan, PlanData};
use crate::generated::shapers_syllabic::ot_shaper_syllabic::khmer_syllable::{
    BROKEN_CLUSTER, NON_KHMER_CLUSTER,
};
use crate::generated::shapers_syllabic::ot_shaper_syllabic::{ScriptCircles, reorder_pause};

// The dotted circles of Khmer.
const CIRCLES: ScriptCircles = ScriptCircles {
    broken_kind: BROKEN_CLUSTER,
    category: OT_DOTTEDCIRCLE,
    repha: Some(OT_Repha),
    position: None,
};

/// Gives broken syllables their dotted circles, and then brings Coeng Ro and the vowels that stand
/// before their base to the front of each syllable, with the masks of the plan; in a regular
/// syllable these are its movers, the last one first. Returns whether circles were wanted. Every
/// cluster afterwards is one that the text had. Refuses with [`UnknownSyllable`], before anything
/// changes; with [`TooLong`]; and with [`Memory`], but not where no circle is put in. (OpenType,
/// "Developing OpenType Fonts for Khmer".)
///
/// <details><summary>Contract</summary>
///
/// # Contract
///
/// ```text
/// requires kept { is_khmer_data plan.now.plan_data ≡ true }
/// requires without_positions { buffer.old.positions ≡ [] }
/// ensures answer { let circles = script_circles khmer_circles (F.font face.now) buffer.old in
///     IfOk result (λ answer. answer ≡ is_some circles) }
/// ensures ok { let circles = script_circles khmer_circles (F.font face.now) buffer.old in
///     OnOk result (PauseReordered circles
///     (khmer_order (order_in plan.now.plan_data)) khmer_steps buffer.old buffer.new) }
/// ensures linked { let circles = script_circles khmer_circles (F.font face.now) buffer.old in
///     let order = khmer_order (order_in plan.now.plan_data) in
///     OnOk result (PauseLinked circles
///     (SyllableReordered order khmer_steps) buffer.old buffer.new) }
/// ensures movers { let circles = script_circles khmer_circles (F.font face.now) buffer.old in
///     OnOk result (PauseReordered circles
///     (ordered_by_movers (order_in plan.now.plan_data)) steps_by_movers buffer.old buffer.new) }
/// ensures cut { let circles = script_circles khmer_circles (F.font face.now) buffer.old in
///     OnOk result (PauseCutsAtBorders circles
///     (khmer_order (order_in plan.now.plan_data)) khmer_steps buffer.old buffer.new) }
/// ensures laws { let circles = script_circles khmer_circles (F.font face.now) buffer.old in
///     let opened = circled circles buffer.old.glyphs in
///     OnOk result (ReorderedHold carried buffer.old.level
///     (text_steps khmer_steps (order_view opened)) opened buffer.new.glyphs) }
/// ensures clusters { OnOk result (NoNewCluster buffer.old.glyphs buffer.new.glyphs) }
/// ensures refusal { let circles = script_circles khmer_circles (F.font face.now) buffer.old in
///     Refuses (unknown_refusal NON_KHMER_CLUSTER buffer.old.glyphs)
///     buffer.old.max_len (length (circled circles buffer.old.glyphs)) result }
/// ensures err { OnErr result (buffer.new ≡ buffer.old) }
/// ensures without_memory { let circles =
///     script_circles khmer_circles (F.font face.now) buffer.old in
///     unknown_refusal NON_KHMER_CLUSTER buffer.old.glyphs ≡ None →
///     circled circles buffer.old.glyphs ≡ buffer.old.glyphs → IsOk result }
/// ```
///
/// - `order_view`: `crates/shapers_buffer/specs/Glyph.antt`
/// - `Refuses`: `crates/shapers_buffer/specs/Refusals.antt`
/// - `unknown_refusal`: `crates/shapers_buffer/specs/Syllables.antt`
/// - `ReorderedHold`: `crates/shapers_clusters/specs/Laws.antt`
/// - `khmer_circles`, `khmer_order`, `khmer_steps`, `order_in`: `crates/shapers_khmer/specs/Khmer.antt`
/// - `ordered_by_movers`, `steps_by_movers`: `crates/shapers_khmer/specs/KhmerMovers.antt`
/// - `is_khmer_data`: `crates/shapers_khmer/specs/Plan.antt`
/// - `NoNewCluster`: `crates/shapers_syllabic/specs/CircleLaws.antt`
/// - `circled`: `crates/shapers_syllabic/specs/Circles.antt`
/// - `PauseLinked`, `PauseReordered`, `SyllableReordered`, `carried`, `script_circles`, `text_steps`: `crates/shapers_syllabic/specs/Reordering.antt`
/// - `PauseCutsAtBorders`: `crates/shapers_syllabic/specs/ReorderingLaws.antt`
///
/// </details>
///
/// [`Memory`]: crate::ShaperError::Memory
/// [`TooLong`]: crate::ShaperError::TooLong
/// [`UnknownSyllable`]: crate::ShaperError::UnknownSyllable
#[inline]
pub fn reorder_khmer<F: Font>(
    plan: &Plan,
    face: &F,
    buffer: &mut Buffer,
) -> Result<bool, ShaperError> {
    let order = order_of(&plan.plan_data);
    reorder_pause(face, &order, &CIRCLES, Some(NON_KHMER_CLUSTER), buffer)
}

// The masks of the order, as the plan keeps them.
#[inline]
fn order_of(plan_data: &PlanData) -> KhmerOrder {
    match plan_data {
        PlanData::Khmer(kept) => {
            let masks = &kept.mask_array;
            KhmerOrder {
                others: masks[BLWF] | masks[ABVF] | masks[PSTF],
                pref: masks[PREF],
                cfar: masks[CFAR],
            }
        }
        _ => unreachable!("the plan has no data of the Khmer shaper"),
    }
}
