// Generated from crates/shapers_indic_final/src/ot_shaper_indic_final/pause.rt by rust/erase; edit the source.

//! The pause of the final reordering.

use super::reordering::FinalOrder;
use super::rules::Rules;
use super::word_start::start_words;
use crate::generated::shapers_base::buffer::Buffer;
use crate::generated::shapers_base::font::Font;
use crate::generated::shapers_base::plan::Plan;
use crate::generated::shapers_indic::ot_shaper_indic::indic_in;
use crate::generated::shapers_syllabic::ot_shaper_syllabic::reorder_syllables_by_steps;

/// Reorders each syllable again, now that the basic features formed its glyphs: its base, its left
/// matras, its reph and a glyph that `pref` formed; and gives a left matra at the start of a word
/// `init`. Every cluster afterwards is one that the text had, and the placement list is empty. It
/// refuses nothing and takes no memory.
/// (OpenType, development of Indic scripts: "Final reordering".)
///
/// <details><summary>Contract</summary>
///
/// # Contract
///
/// ```text
/// requires without_positions { buffer.old.positions ≡ [] }
/// requires kept { is_indic_data plan.now.plan_data ≡ true }
/// ensures reordered { let rules = final_rules (F.font face.now) (indic_in plan.now) in
///     FinallyReordered rules buffer.old buffer.new }
/// ensures linked { let rules = final_rules (F.font face.now) (indic_in plan.now) in
///     FinallyLinked rules buffer.old buffer.new }
/// ensures laws { let rules = final_rules (F.font face.now) (indic_in plan.now) in
///     FinallyKept rules buffer.old buffer.new }
/// ensures clusters { NoNewCluster buffer.old.glyphs buffer.new.glyphs }
/// ```
///
/// - `indic_in`, `is_indic_data`: `crates/shapers_indic/specs/Plan.antt`
/// - `FinallyKept`: `crates/shapers_indic_final/specs/FinalLaws.antt`
/// - `final_rules`: `crates/shapers_indic_final/specs/FinalRules.antt`
/// - `FinallyLinked`, `FinallyReordered`: `crates/shapers_indic_final/specs/FinalWordStart.antt`
/// - `NoNewCluster`: `crates/shapers_syllabic/specs/CircleLaws.antt`
///
/// </details>
#[inline]
pub fn final_reordering<F: Font>(plan: &Plan, face: &F, buffer: &mut Buffer) {
    let rules = Rules::new(indic_in(plan), face);
    let order = FinalOrder {
        rules: &rules,
        script: buffer.script(),
    };
    // (this order never refuses)
    reorder_syllables_by_steps(&order, buffer).unwrap();
    start_words(rules.init, buffer);
}
