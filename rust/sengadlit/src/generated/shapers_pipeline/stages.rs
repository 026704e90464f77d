// Generated from crates/shapers_pipeline/src/stages.rt by rust/erase; edit the source.

//! The stages of a plan: the lookups of each, and what the shaper does behind them.

use crate::generated::rustybuzz_shapers::shaper::checked::{CallError, checked_run_pause_found};
use crate::generated::shapers_base::buffer::Buffer;
use crate::generated::shapers_base::font::Font;
use crate::generated::shapers_base::plan::{Pause, Plan};
use crate::generated::shapers_pipeline::lookups::{Lookups, apply_lookups};
use crate::generated::shapers_pipeline::plan::StagePlan;
use crate::generated::shapers_pipeline::planned::set_script_and_direction;
use crate::generated::shapers_plan::ot_map::{Stage, StageLookup};

/// Runs the stages of a plan over a text of glyphs without positions: the lookups of each, one
/// after another, and then what the shaper does behind the stage. Syllables are found by the
/// shaper's grammar where a pause writes them. Script and direction are the plan's, and those of
/// the buffer stay.
///
/// # Errors
///
/// The refusal of a lookup; or of a pause, the first of its conditions that isn't met, or its
/// refusal, which a pause that sets up syllables doesn't have. The glyphs are as they were before
/// that lookup or pause, and the script and direction of the buffer as they were. [`TooLong`] doesn't
/// come where [`max_len`] is as much as the text may grow.
///
/// # Panics
///
/// Where the font or the lookups do. May panic, or leave an unspecified text, where the buffer has positions.
///
/// <details><summary>Contract</summary>
///
/// # Contract
///
/// ```text
/// requires { buffer.old.positions ≡ [] }
/// ensures ok { let r : Substitution = record {
///   plan = plan.now.plan.now;
///   font = F.font font.now;
///   substituted = L.substituted lookups.now;
///   list = plan.now.lookups.now;
/// } in
///     let text = as_planned plan.now.plan.now.script plan.now.direction buffer.old in
///     OnOk result ((last : Buffer) × (StagesRun r plan.now.stages.now text last
///     × (buffer.new ≡ put_back buffer.old last))) }
/// ensures err { let r : Substitution = record {
///   plan = plan.now.plan.now;
///   font = F.font font.now;
///   substituted = L.substituted lookups.now;
///   list = plan.now.lookups.now;
/// } in
///     let text = as_planned plan.now.plan.now.script plan.now.direction buffer.old in
///     let refusals = L.substituting_refuses lookups.now in
///     IfErr result (λ e. (left : Buffer)
///     × (StagesStopped r refusals plan.now.stages.now text left e
///     × (buffer.new ≡ put_back buffer.old left))) }
/// ensures room { let growth = L.growth_of lookups.now in
///     stages_bound growth plan.now.lookups.now plan.now.stages.now (length buffer.old.glyphs)
///     ≤ buffer.old.max_len → NotTooLong result }
/// ensures positions { OnOk result (buffer.new.positions ≡ []) }
/// ```
///
/// - `Buffer`: `crates/shapers_buffer/specs/Buffer.antt`
/// - `NotTooLong`, `stages_bound`: `crates/shapers_pipeline/specs/Lengths.antt`
/// - `as_planned`, `put_back`: `crates/shapers_pipeline/specs/Planned.antt`
/// - `StagesRun`, `StagesStopped`, `Substitution`: `crates/shapers_pipeline/specs/Stages.antt`
///
/// </details>
///
/// [`TooLong`]: crate::ShaperError::TooLong
/// [`max_len`]: crate::Buffer::max_len
pub fn run_stages<F: Font, L: Lookups>(
    plan: &StagePlan,
    font: &F,
    lookups: &L,
    buffer: &mut Buffer,
) -> Result<(), CallError> {
    let script = buffer.script();
    let direction = buffer.direction();
    set_script_and_direction(plan.plan.script, plan.direction, buffer);
    let run = run_planned_stages(plan, font, lookups, buffer);
    set_script_and_direction(script, direction, buffer);
    run
}

// The same of a text in the script of the plan.
pub(crate) fn run_planned_stages<F: Font, L: Lookups>(
    plan: &StagePlan,
    font: &F,
    lookups: &L,
    buffer: &mut Buffer,
) -> Result<(), CallError> {
    for stage in plan.stages {
        run_stage(plan, *stage, font, lookups, buffer)?;
    }
    Ok(())
}

// Runs one stage.
fn run_stage<F: Font, L: Lookups>(
    plan: &StagePlan,
    stage: Stage,
    font: &F,
    lookups: &L,
    buffer: &mut Buffer,
) -> Result<(), CallError> {
    apply_lookups(lookups, lookups_of_stage(stage, plan.lookups), buffer)?;
    match stage.pause {
        Some(pause) => run_stage_pause(pause, plan.plan, font, buffer),
        None => Ok(()),
    }
}

// The lookups of a stage, as far as the list goes.
#[inline]
pub(crate) fn lookups_of_stage(stage: Stage, list: &[StageLookup]) -> &[StageLookup] {
    // (many stages have a pause alone, or nothing of this font)
    if stage.end <= stage.start {
        return &[];
    }
    let end = stage.end.min(list.len());
    let start = stage.start.min(end);
    &list[start..end]
}

// Runs the pause of a stage.
fn run_stage_pause<F: Font>(
    pause: Pause,
    plan: &Plan,
    font: &F,
    buffer: &mut Buffer,
) -> Result<(), CallError> {
    checked_run_pause_found(pause, plan, font, buffer)?;
    Ok(())
}
