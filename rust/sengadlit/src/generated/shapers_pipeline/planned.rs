// Generated from crates/shapers_pipeline/src/planned.rt by rust/erase; edit the source.

//! The script and direction of a text: its plan's during a call, and then its own again.

use crate::generated::shapers_base::buffer::{Buffer, Direction, Script};
use crate::generated::shapers_plan::ot_shape_plan::EnginePlan;

// Sets the script and direction of a text.
#[inline]
pub(crate) fn set_script_and_direction(
    script: Option<Script>,
    direction: Direction,
    buffer: &mut Buffer,
) {
    buffer.set_script(script);
    buffer.set_direction(direction);
}

// Sets those of a plan.
#[inline]
pub(crate) fn set_to_plan(plan: &EnginePlan, buffer: &mut Buffer) {
    set_script_and_direction(plan.plan().script, plan.direction(), buffer);
}

// Sets those that the text had before the call.
#[inline]
pub(crate) fn put_back(kept: &Buffer, buffer: &mut Buffer) {
    set_script_and_direction(kept.script(), kept.direction(), buffer);
}
