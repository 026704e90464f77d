//! Plans that are made once.

use super::{Face, Feature, ShapePlan, ShapePlanBuilder};
use crate::alloc::{Global, Vec};
use crate::buffer::{Buffer, Direction, Script, ShaperError};
use crate::language::Language;

/// How many plans a cache keeps: more than a text has scripts, directions and lists of features.
const MOST_PLANS: usize = 64;

/// The plans of a face, found by script, language, direction and features and made where there is none: a
/// program that shapes many texts lends one to [`shape_with_cache`](super::shape_with_cache).
///
/// A cache serves one face, as a plan does, and one thread at a time. It keeps 64 plans: the one that was
/// made first goes for another. It also keeps the room in which texts are shaped, which is that of the
/// longest of them, so that a new [`UnicodeBuffer`](super::UnicodeBuffer) takes memory for its glyphs and
/// positions alone.
#[derive(Debug)]
pub struct PlanCache {
    choices: ShapePlanBuilder<'static>,
    plans: Vec<Kept>,
    room: Buffer,
}

impl Default for PlanCache {
    fn default() -> Self {
        PlanCache::with_choices(ShapePlan::builder())
    }
}

/// A plan with what it was made for.
#[derive(Debug)]
struct Kept {
    features: Vec<Feature>,
    plan: ShapePlan,
}

impl Kept {
    fn is_for(
        &self,
        direction: Direction,
        script: Option<Script>,
        language: Option<Language>,
        features: &[Feature],
    ) -> bool {
        self.plan.direction() == direction
            && self.plan.script() == script
            && self.plan.language() == language
            && self.features.as_slice() == features
    }
}

impl PlanCache {
    /// A cache of plans with HarfBuzz's choices. It takes no memory.
    pub fn new() -> Self {
        PlanCache::default()
    }

    /// A cache of plans with the choices of a builder, whose script, language, direction and features
    /// don't matter.
    pub fn with_choices(choices: ShapePlanBuilder<'static>) -> Self {
        PlanCache {
            choices,
            plans: Vec::new(Global),
            room: Buffer::default(),
        }
    }

    /// How many plans the cache has.
    pub fn len(&self) -> usize {
        self.plans.len()
    }

    /// Whether the cache has no plans.
    pub fn is_empty(&self) -> bool {
        self.plans.is_empty()
    }

    /// Drops the plans, so that the cache may serve another face.
    pub fn clear(&mut self) {
        self.plans.clear();
    }

    /// The plan for texts of a script, a language and a direction with these features, which is made where
    /// the cache hasn't got it.
    ///
    /// # Errors
    ///
    /// [`ShaperError::Memory`]; the cache has no plan more then.
    pub fn plan(
        &mut self,
        face: &Face<'_>,
        direction: Direction,
        script: Option<Script>,
        language: Option<Language>,
        features: &[Feature],
    ) -> Result<&ShapePlan, ShaperError> {
        let made = self.plan_and_room(face, direction, script, language, features);
        made.map(|(plan, _)| plan)
    }

    /// The same plan, and a buffer in which texts are shaped.
    #[inline]
    pub(super) fn plan_and_room(
        &mut self,
        face: &Face<'_>,
        direction: Direction,
        script: Option<Script>,
        language: Option<Language>,
        features: &[Feature],
    ) -> Result<(&ShapePlan, &mut Buffer), ShaperError> {
        let found = self
            .plans
            .as_slice()
            .iter()
            .position(|kept| kept.is_for(direction, script, language, features));
        let place = if let Some(place) = found {
            place
        } else {
            let builder = self.choices.script(script).language(language);
            let builder = builder.direction(direction);
            self.keep(builder.features(features).build(face)?, features)?
        };
        Ok((&self.plans.as_slice()[place].plan, &mut self.room))
    }

    /// Keeps a plan, and returns its place.
    fn keep(&mut self, plan: ShapePlan, features: &[Feature]) -> Result<usize, ShaperError> {
        let features = Vec::from_slice(Global, features).map_err(|_| ShaperError::Memory)?;
        if self.plans.len() == MOST_PLANS {
            self.plans.remove(0);
        }
        let kept = Kept { features, plan };
        self.plans.push(kept).map_err(|_| ShaperError::Memory)?;
        Ok(self.plans.len() - 1)
    }
}
