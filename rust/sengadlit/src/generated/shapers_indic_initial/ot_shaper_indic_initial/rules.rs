// Generated from crates/shapers_indic_initial/src/ot_shaper_indic_initial/rules.rt by rust/erase; edit the source.

//! What the initial reordering reads of the plan and the font.

use crate::generated::shapers_base::font::Font;
use crate::generated::shapers_base::map::Map;
use crate::generated::shapers_base::plan::IndicPlan;

/// What the initial reordering reads: Indic's data in the plan, and of which glyphs a feature would
/// substitute, by the plan's lookups and the font.
pub(super) struct Rules<'a, F: Font> {
    pub(super) plan: &'a IndicPlan,
    pub(super) map: &'a Map,
    pub(super) font: &'a F,
}
