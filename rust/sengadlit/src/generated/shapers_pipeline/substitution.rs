// Generated from crates/shapers_pipeline/src/substitution.rt by rust/erase; edit the source.

//! From characters to the glyphs behind the last stage of lookups.

use crate::generated::rustybuzz_shapers::shaper::checked::CallError;
use crate::generated::shapers_base::buffer::Buffer;
use crate::generated::shapers_pipeline::lookups::{Lookups, note_glyphs};
use crate::generated::shapers_pipeline::normalizing::{
    NormalizeFont, NormalizeSettings, NormalizeTables,
};
use crate::generated::shapers_pipeline::plan::{StagePlan, TextPlan};
use crate::generated::shapers_pipeline::planned::{put_back, set_to_plan};
use crate::generated::shapers_pipeline::prepare::Preparing;
use crate::generated::shapers_pipeline::stages::run_planned_stages;
use crate::generated::shapers_plan::ot_shape_plan::EnginePlan;
use crate::generated::shapers_prepare::ot_shape_prepare::UnicodeProperties;

/// Makes glyphs of a text's characters, and substitutes them: `prepare_text`, what the lookups keep
/// beside each glyph, and then `run_stages` over the stages of the plan. Script and direction are the
/// plan's, and those of the buffer stay: the glyphs stand in the order of their script's own
/// direction, whichever that is.
///
/// # Errors
///
/// Those of both, and [`Memory`] for a copy of the text, as which it is given back: nothing has changed
/// then. By `pipeline_lengths_law` never [`TooLong`] with the [`max_len`] that `length_bound` tells.
///
/// <details><summary>Contract</summary>
///
/// # Contract
///
/// ```text
/// ensures ok { let p = preparation_by plan.now settings.now (F.font font.now)
///     (F.variants font.now) (T.properties tables.now) (T.tables tables.now)
///     (T.texts tables.now) in
///     let r = substitution_by plan.now (F.font font.now) (L.substituted lookups.now) in
///     let text = as_planned plan.now.plan.script plan.now.direction buffer.old in
///     let noted = text_noted (L.noted lookups.now) (text_prepared p text) in
///     OnOk result ((last : Buffer) × (StagesRun r plan.now.stages noted last
///     × (buffer.new ≡ put_back buffer.old last))) }
/// ensures err { OnErr result (buffer.new ≡ buffer.old) }
/// ensures refusal { let p = preparation_by plan.now settings.now (F.font font.now)
///     (F.variants font.now) (T.properties tables.now) (T.tables tables.now)
///     (T.texts tables.now) in
///     let r = substitution_by plan.now (F.font font.now) (L.substituted lookups.now) in
///     let text = as_planned plan.now.plan.script plan.now.direction buffer.old in
///     let noted = text_noted (L.noted lookups.now) (text_prepared p text) in
///     let refusals = L.substituting_refuses lookups.now in
///     IfErr result (λ e. (e ≡ call.Refused Memory) ⊎ ((left : Buffer)
///     × (IsStopped p text left e
///     ⊎ StagesStopped r refusals plan.now.stages noted left e))) }
/// ensures room { let growth = L.growth_of lookups.now in
///     PreparationGrows → PreparationHasRoom →
///     shaped_bound plan.now.shaper growth plan.now.lookups plan.now.stages
///     (length buffer.old.glyphs) ≤ buffer.old.max_len → NotTooLong result }
/// ensures positions { OnOk result (buffer.new.positions ≡ []) }
/// ```
///
/// - `Buffer`: `crates/shapers_buffer/specs/Buffer.antt`
/// - `NotTooLong`, `PreparationGrows`, `PreparationHasRoom`, `shaped_bound`: `crates/shapers_pipeline/specs/Lengths.antt`
/// - `text_noted`: `crates/shapers_pipeline/specs/Lookups.antt`
/// - `as_planned`, `put_back`: `crates/shapers_pipeline/specs/Planned.antt`
/// - `text_prepared`: `crates/shapers_pipeline/specs/Prepared.antt`
/// - `IsStopped`: `crates/shapers_pipeline/specs/Refusals.antt`
/// - `StagesRun`, `StagesStopped`: `crates/shapers_pipeline/specs/Stages.antt`
/// - `preparation_by`, `substitution_by`: `crates/shapers_pipeline/specs/Substituted.antt`
///
/// </details>
///
/// [`Memory`]: crate::ShaperError::Memory
/// [`TooLong`]: crate::ShaperError::TooLong
/// [`max_len`]: crate::Buffer::max_len
pub fn substitute_text<F: NormalizeFont, T: NormalizeTables + UnicodeProperties, L: Lookups>(
    plan: &EnginePlan,
    settings: &NormalizeSettings,
    font: &F,
    tables: &T,
    lookups: &L,
    buffer: &mut Buffer,
) -> Result<(), CallError> {
    let kept = buffer.keep()?;
    set_to_plan(plan, buffer);
    let substituting = Substituting {
        plan,
        settings,
        font,
        tables,
        lookups,
    };
    match substituting.substitute(buffer) {
        Ok(()) => {
            put_back(&kept, buffer);
            buffer.recycle(kept);
            Ok(())
        }
        Err(error) => {
            buffer.restore(kept);
            Err(error)
        }
    }
}

// What a text is substituted by.
pub(crate) struct Substituting<'a, F, T, L> {
    pub(crate) plan: &'a EnginePlan,
    pub(crate) settings: &'a NormalizeSettings,
    pub(crate) font: &'a F,
    pub(crate) tables: &'a T,
    pub(crate) lookups: &'a L,
}

impl<'a, F: NormalizeFont, T: NormalizeTables + UnicodeProperties, L: Lookups>
    Substituting<'a, F, T, L>
{
    // Substitutes a text in the script and direction of the plan, whose direction is then its
    // script's.
    pub(crate) fn substitute(&self, buffer: &mut Buffer) -> Result<(), CallError> {
        let plan = self.plan;
        let text = TextPlan {
            shaper: plan.shaper(),
            plan: plan.plan(),
            direction: plan.direction(),
            masks: plan.masks(),
            ranges: plan.ranges(),
        };
        let preparing = Preparing {
            plan: &text,
            settings: self.settings,
            font: self.font,
            tables: self.tables,
        };
        preparing.prepare(buffer)?;
        note_glyphs(self.lookups, buffer);
        let stages = StagePlan {
            plan: plan.plan(),
            direction: plan.direction(),
            stages: plan.stages(),
            lookups: plan.lookups(),
        };
        run_planned_stages(&stages, self.font, self.lookups, buffer)
    }
}
