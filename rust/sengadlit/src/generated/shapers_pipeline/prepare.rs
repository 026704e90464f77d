// Generated from crates/shapers_pipeline/src/prepare.rt by rust/erase; edit the source.

//! A text before the font's lookups, from characters to glyphs.

use crate::generated::rustybuzz_shapers::shaper::checked::{CallError, Condition};
use crate::generated::rustybuzz_shapers::shaper::lacks_positions;
use crate::generated::shapers_base::buffer::{Buffer, Direction, ShaperError};
use crate::generated::shapers_pipeline::fractions::set_fractions;
use crate::generated::shapers_pipeline::masks::{initialize_masks, map_glyphs, set_features};
use crate::generated::shapers_pipeline::normalizing::{
    NormalizeFont, NormalizeSettings, NormalizeTables, ot_shape_normalize,
};
use crate::generated::shapers_pipeline::plan::TextPlan;
use crate::generated::shapers_pipeline::planned::set_script_and_direction;
use crate::generated::shapers_pipeline::preprocessing::{plan_fits, preprocess_text, setup_masks};
use crate::generated::shapers_plan::ot_shape_plan::DriverMasks;
use crate::generated::shapers_prepare::ot_shape_prepare::{
    CharRotation, UnicodeProperties, ensure_native_direction, form_clusters, insert_dotted_circle,
    rotate_chars, set_unicode_properties,
};

/// Does all that comes before the font's lookups, in HarfBuzz's order: the features of the whole
/// text and the properties of its characters are set, a circle comes before a first mark, graphemes
/// form clusters, the text turns to its own direction, its shaper rewrites it, characters rotate,
/// the text is normalized, fractions, the shaper and the caller's features in ranges set masks, and
/// each character becomes its glyph. Script and direction are the plan's, and those of the buffer
/// stay: the glyphs stand in the order of their script's own direction, whichever that is.
///
/// # Errors
///
/// [`Condition`]: `Positions` and `PlanData`, and nothing has changed then; `Glyphs` where a number
/// isn't a character's, and the text is normalized then. `Refused` with [`TooLong`] and [`Memory`]: the
/// text is as it was before the step that wanted more room. The script and direction of the buffer
/// are as they were.
///
/// <details><summary>Contract</summary>
///
/// # Contract
///
/// ```text
/// ensures ok { let p = preparation plan.now settings.now (F.font font.now) (F.variants font.now)
///     (T.properties tables.now) (T.tables tables.now) (T.texts tables.now) in
///     let text = as_planned plan.now.plan.now.script plan.now.direction buffer.old in
///     OnOk result (buffer.new ≡ put_back buffer.old (text_prepared p text)) }
/// ensures met { let p = preparation plan.now settings.now (F.font font.now) (F.variants font.now)
///     (T.properties tables.now) (T.tables tables.now) (T.texts tables.now) in
///     let text = as_planned plan.now.plan.now.script plan.now.direction buffer.old in
///     OnOk result (IsPrepared p text) }
/// ensures err { let p = preparation plan.now settings.now (F.font font.now) (F.variants font.now)
///     (T.properties tables.now) (T.tables tables.now) (T.texts tables.now) in
///     let text = as_planned plan.now.plan.now.script plan.now.direction buffer.old in
///     IfErr result (λ e. (left : Buffer) × (IsStopped p text left e
///     × (buffer.new ≡ put_back buffer.old left))) }
/// ensures positions { OnOk result (buffer.new.positions ≡ []) }
/// ```
///
/// - `Buffer`: `crates/shapers_buffer/specs/Buffer.antt`
/// - `as_planned`, `put_back`: `crates/shapers_pipeline/specs/Planned.antt`
/// - `preparation`, `text_prepared`: `crates/shapers_pipeline/specs/Prepared.antt`
/// - `IsPrepared`, `IsStopped`: `crates/shapers_pipeline/specs/Refusals.antt`
///
/// </details>
///
/// [`Condition`]: crate::shaper::checked::Condition
/// [`Memory`]: crate::ShaperError::Memory
/// [`TooLong`]: crate::ShaperError::TooLong
pub fn prepare_text<F: NormalizeFont, T: NormalizeTables + UnicodeProperties>(
    plan: &TextPlan,
    settings: &NormalizeSettings,
    font: &F,
    tables: &T,
    buffer: &mut Buffer,
) -> Result<(), CallError> {
    let script = buffer.script();
    let direction = buffer.direction();
    set_script_and_direction(plan.plan.script, plan.direction, buffer);
    let preparing = Preparing {
        plan,
        settings,
        font,
        tables,
    };
    let prepared = preparing.prepare(buffer);
    set_script_and_direction(script, direction, buffer);
    prepared
}

// What a text is prepared by.
pub(crate) struct Preparing<'a, F, T> {
    pub(crate) plan: &'a TextPlan<'a>,
    pub(crate) settings: &'a NormalizeSettings,
    pub(crate) font: &'a F,
    pub(crate) tables: &'a T,
}

impl<'a, F: NormalizeFont, T: NormalizeTables + UnicodeProperties> Preparing<'a, F, T> {
    // Prepares a text in the script and direction of the plan, whose direction is then its script's.
    pub(crate) fn prepare(&self, buffer: &mut Buffer) -> Result<(), CallError> {
        let plan = self.plan;
        if !lacks_positions(buffer) {
            return Err(CallError::Condition(Condition::Positions));
        }
        if !plan_fits(plan.shaper, plan.plan) {
            return Err(CallError::Condition(Condition::PlanData));
        }
        self.prepare_characters(buffer)?;
        set_fractions(&plan.masks, buffer);
        setup_masks(plan.shaper, plan.plan, self.font, self.tables, buffer)?;
        set_features(plan.ranges, buffer);
        map_glyphs(buffer);
        Ok(())
    }

    // Does all that is done to the characters: from their masks and properties to normalization.
    fn prepare_characters(&self, buffer: &mut Buffer) -> Result<(), ShaperError> {
        let direction = buffer.direction();
        set_masks_and_properties(self.plan, self.tables, buffer);
        insert_dotted_circle(self.tables, self.font, buffer)?;
        form_clusters_and_direct(buffer);
        self.preprocess_and_normalize(direction, buffer)
    }

    // Lets the shaper rewrite a text that stands in its own direction, rotates its characters and
    // normalizes it, for a caller who wants `direction`.
    fn preprocess_and_normalize(
        &self,
        direction: Direction,
        buffer: &mut Buffer,
    ) -> Result<(), ShaperError> {
        let plan = self.plan;
        preprocess_text(plan.shaper, plan.plan, self.font, buffer)?;
        let rotation = rotation_to(&plan.masks, direction);
        rotate_chars(self.tables, self.font, &rotation, buffer);
        ot_shape_normalize(
            plan.shaper,
            plan.plan,
            self.font,
            self.tables,
            self.settings,
            buffer,
        )
    }
}

// What characters are rotated by, where the caller wants this direction.
#[inline]
fn rotation_to(masks: &DriverMasks, direction: Direction) -> CharRotation {
    CharRotation {
        direction,
        rtlm_mask: masks.rtlm,
        has_vert: masks.vert != 0,
    }
}

// Sets the features of the whole text and the properties of its characters.
#[inline]
fn set_masks_and_properties<T: UnicodeProperties>(
    plan: &TextPlan,
    tables: &T,
    buffer: &mut Buffer,
) {
    initialize_masks(plan.plan.ot_map.global_bits(), buffer);
    set_unicode_properties(tables, buffer);
}

// Forms the clusters of the graphemes, and turns the text to its own direction.
fn form_clusters_and_direct(buffer: &mut Buffer) {
    form_clusters(buffer);
    ensure_native_direction(buffer);
}
