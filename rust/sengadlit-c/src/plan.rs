//! Plans, from what C gives.
use crate::border::plans::{Kept, PlanInput};
use crate::layout::{Bool, Data, Feature, Stage};
use crate::numbers::{self, script, tag};
use crate::status::{Argument, Error};
use core::ops::Range;
use core::sync::atomic::AtomicUsize;
use sengadlit::alloc::{AllocError, Global, Vec as List};
use sengadlit::buffer::ShaperError;
use sengadlit::map::{FeatureMap, Map, TableIndex};
use sengadlit::ot_shape_plan::ShapeChoices;
use sengadlit::plan::{
    ArabicPlan, BaseSearch, BreakFlags, Plan as Inner, StretchStart, ZeroContext,
};
use sengadlit::script::THAI;
use sengadlit::shaper::Shaper;

/// The bits of a mask that are glyph flags.
const GLYPH_FLAGS: u32 = 7;

/// `sengadlit_plan_t`: a plan with the data of its shaper.
pub struct Plan {
    pub references: AtomicUsize,
    pub shaper: Shaper,
    pub inner: Inner,
    /// Whether a lookup stands in it, about which a hook may ask the font.
    pub has_lookups: bool,
    pub kept: Kept,
}

/// The plan for a shaper, with one reference.
pub fn make(
    shaper: Shaper,
    input: &PlanInput,
    features: &[Feature],
    stages: &[Stage],
    lookups: &[u16],
) -> Result<Plan, Error> {
    if let Some(index) = features
        .iter()
        .position(|feature| feature.mask & GLYPH_FLAGS != 0)
    {
        return Err(Error::argument_at(Argument::Features, index));
    }
    let is_range = |stage: &Stage| stage.start <= stage.end && stage.end as usize <= lookups.len();
    if let Some(index) = stages.iter().position(|stage| !is_range(stage)) {
        return Err(Error::argument_at(Argument::Stages, index));
    }
    let mut plan = Inner::new(script(input.script), map(input, features, stages, lookups)?);
    plan.has_gpos_mark = input.has_gpos_mark != 0;
    let choices = choices(
        input.centres_stretch,
        input.sound_breaks,
        input.searches_medials,
        input.new_spec_zero_context,
    );
    plan.stretch_start = choices.stretch_start;
    plan.break_flags = choices.break_flags;
    plan.base_search = choices.base_search;
    plan.zero_context = choices.zero_context;
    Ok(Plan {
        references: AtomicUsize::new(1),
        shaper,
        inner: shaper.with_data(plan),
        has_lookups: !lookups.is_empty(),
        kept: input.kept,
    })
}

/// What these fields of a plan's input choose.
pub fn choices(
    centres_stretch: Bool,
    sound_breaks: Bool,
    searches_medials: Bool,
    new_spec_zero_context: Bool,
) -> ShapeChoices {
    let mut choices = ShapeChoices::default();
    if centres_stretch != 0 {
        choices.stretch_start = StretchStart::Centred;
    }
    if sound_breaks != 0 {
        choices.break_flags = BreakFlags::Sound;
    }
    if searches_medials != 0 {
        choices.base_search = BaseSearch::AllConsonants;
    }
    if new_spec_zero_context != 0 {
        choices.zero_context = ZeroContext::NewSpec;
    }
    choices
}

// The map of these features, stages and lookups, which fit each other.
fn map(
    input: &PlanInput,
    features: &[Feature],
    stages: &[Stage],
    lookups: &[u16],
) -> Result<Map, Error> {
    let of_feature = |f: &Feature| FeatureMap {
        tag: tag(f.tag),
        mask: f.mask,
        stage: f.stage as usize,
    };
    let of_stage = |s: &Stage| -> Range<usize> { s.start as usize..s.end as usize };
    let features = list(features, of_feature).map_err(ShaperError::from)?;
    let stages = list(stages, of_stage).map_err(ShaperError::from)?;
    let lookups = List::from_slice(Global, lookups).map_err(ShaperError::from)?;
    let chosen = (input.chosen_script != 0).then(|| tag(input.chosen_script));
    let map = Map::new(
        features,
        stages,
        lookups,
        input.global_mask,
        chosen,
        input.found_script != 0,
    );
    map.ok_or_else(|| Error::argument(Argument::Stages))
}

/// A list of the things that these items stand for.
pub fn list<'a, A, B>(items: &'a [A], of: impl Fn(&'a A) -> B) -> Result<List<B>, AllocError> {
    let mut list = List::with_capacity(Global, items.len())?;
    for item in items {
        list.push(of(item)).map_err(|_| AllocError)?;
    }
    Ok(list)
}

/// What the shaper keeps in the plan.
pub fn data(plan: &Plan) -> Data {
    let kept = &plan.inner.plan_data;
    let mut data = Data {
        shaper: numbers::shaper_number(plan.shaper),
        ..Data::default()
    };
    if let Some(arabic) = kept.arabic() {
        put_joining(&mut data, arabic);
    }
    if let Some(universal) = kept.universal() {
        data.rphf_mask = universal.rphf_mask;
        if let Some(arabic) = &universal.arabic_plan {
            put_joining(&mut data, arabic);
        }
    }
    if let Some(hangul) = kept.hangul() {
        put_masks(&mut data, &hangul.mask_array);
    }
    if let Some(khmer) = kept.khmer() {
        put_masks(&mut data, &khmer.mask_array);
    }
    data
}

fn put_joining(data: &mut Data, arabic: &ArabicPlan) {
    put_masks(data, &arabic.mask_array);
    data.has_stch = Bool::from(arabic.has_stch);
    data.joins = 1;
}

fn put_masks(data: &mut Data, masks: &[u32]) {
    for (to, mask) in data.masks.iter_mut().zip(masks) {
        *to = *mask;
    }
}

impl Plan {
    /// Whether Thai takes the forms of the Private Use Area.
    pub fn wants_forms(&self) -> bool {
        let found_script = self.inner.ot_map.found_script(TableIndex::GSUB);
        self.inner.script == Some(THAI) && !found_script
    }

    /// Whether letters join.
    #[inline]
    pub fn joins(&self) -> bool {
        match self.shaper {
            Shaper::Arabic => true,
            Shaper::Universal => self
                .inner
                .plan_data
                .universal()
                .is_some_and(|kept| kept.arabic_plan.is_some()),
            _ => false,
        }
    }
}

#[cfg(test)]
mod tests {
    use super::*;
    use core::ptr::{null, null_mut};

    fn input() -> PlanInput {
        PlanInput {
            size: 0,
            script: u32::from_be_bytes(*b"Deva"),
            chosen_script: 0,
            found_script: 0,
            has_gpos_mark: 0,
            centres_stretch: 0,
            sound_breaks: 0,
            global_mask: 0,
            searches_medials: 0,
            features: null(),
            features_length: 0,
            stages: null(),
            stages_length: 0,
            lookups: null(),
            lookups_length: 0,
            kept: Kept {
                user_data: null_mut(),
                destroy: None,
            },
            new_spec_zero_context: 0,
        }
    }

    type Choices = (StretchStart, BreakFlags, BaseSearch, ZeroContext);

    fn chosen(input: &PlanInput) -> Choices {
        let plan = make(Shaper::Indic, input, &[], &[], &[])
            .ok()
            .unwrap()
            .inner;
        let kept = plan.plan_data.indic().unwrap();
        assert_eq!(kept.base_search, plan.base_search);
        // (the font has no script: one of the older specification)
        assert_eq!(
            kept.rphf.zero_context(),
            plan.zero_context == ZeroContext::OldSpec
        );
        (
            plan.stretch_start,
            plan.break_flags,
            plan.base_search,
            plan.zero_context,
        )
    }

    #[test]
    fn each_choice_of_the_input_is_the_plans() {
        use BaseSearch::{AllConsonants, WithoutMedials};
        use StretchStart::{AsCode, Centred};
        use ZeroContext::{NewSpec, OldSpec};
        const CODE: BreakFlags = BreakFlags::AsCode;
        let medials = PlanInput {
            searches_medials: 1,
            ..input()
        };
        let sound = PlanInput {
            sound_breaks: 1,
            ..input()
        };
        let centred = PlanInput {
            centres_stretch: 1,
            ..input()
        };
        let newer = PlanInput {
            new_spec_zero_context: 1,
            ..input()
        };
        let none = (AsCode, CODE, WithoutMedials, OldSpec);
        assert_eq!(chosen(&input()), none);
        assert_eq!(chosen(&medials), (AsCode, CODE, AllConsonants, OldSpec));
        assert_eq!(chosen(&sound), (AsCode, BreakFlags::Sound, none.2, OldSpec));
        assert_eq!(chosen(&centred), (Centred, CODE, none.2, OldSpec));
        assert_eq!(chosen(&newer), (AsCode, CODE, none.2, NewSpec));
    }

    // Marks stretch in a font that has `stch`; letters join, whatever it has.
    #[test]
    fn data_tell_whether_marks_stretch() {
        let feature = |name: &[u8; 4]| Feature {
            tag: u32::from_be_bytes(*name),
            mask: 0x10,
            stage: 0,
        };
        let data_of = |shaper, feature| {
            let plan = make(shaper, &input(), &[feature], &[], &[]).ok().unwrap();
            let data = data(&plan);
            (data.joins, data.has_stch, data.masks)
        };
        let arabic = Shaper::Arabic;
        assert_eq!(data_of(arabic, feature(b"stch")), (1, 1, [0; 9]));
        let (joins, has_stch, masks) = data_of(arabic, feature(b"init"));
        assert_eq!((joins, has_stch), (1, 0));
        assert_eq!(masks.iter().filter(|mask| **mask == 0x10).count(), 1);
        assert_eq!(data_of(Shaper::Thai, feature(b"stch")), (0, 0, [0; 9]));
    }
}
