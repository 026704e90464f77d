// Generated from crates/shapers_pipeline/src/plan.rt by rust/erase; edit the source.

//! What is decided for a text before it is seen.

use crate::generated::rustybuzz_shapers::shaper::Shaper;
use crate::generated::shapers_base::buffer::Direction;
use crate::generated::shapers_base::plan::Plan;
use crate::generated::shapers_plan::ot_map::{Stage, StageLookup};
use crate::generated::shapers_plan::ot_shape_plan::{DriverMasks, UserRange};

/// What is decided for a text before it is seen, as far as its preparation reads it.
#[derive(Clone, Copy, Debug)]
pub struct TextPlan<'a> {
    /// The shaper of the text's script; None for one that needs none.
    pub shaper: Option<Shaper>,
    /// The plan that its hooks read, with the text's script.
    pub plan: &'a Plan,
    /// The direction of the text.
    pub direction: Direction,
    /// The masks of the features that are turned on glyph by glyph.
    pub masks: DriverMasks,
    /// The caller's features in ranges, the later ones over the earlier.
    pub ranges: &'a [UserRange],
}

/// What is decided for a text before it is seen, as far as the stages of lookups read it.
#[derive(Clone, Copy, Debug)]
pub struct StagePlan<'a> {
    /// The plan that the shaper's hooks read, with the text's script.
    pub plan: &'a Plan,
    /// The direction of the text, which no pause reads, though lookups may.
    pub direction: Direction,
    /// The stages, each a range of the list of lookups.
    pub stages: &'a [Stage],
    /// The lookups of all stages.
    pub lookups: &'a [StageLookup],
}
