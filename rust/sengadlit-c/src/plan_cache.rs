//! The plans of faces, which a thread keeps for the texts that come next.
use crate::plan::list;
use core::cell::RefCell;
use sengadlit::Language;
use sengadlit::alloc::Vec as List;
use sengadlit::buffer::{Direction, Script, ShaperError};
use sengadlit::opentype::ShapePlan;
use sengadlit::ot_shape_normalize::Rounds;
use sengadlit::ot_shape_plan::UserFeature;
use sengadlit::plan::{BaseSearch, BreakFlags, ZeroContext};

/// How many plans a cache keeps: those that were used last.
const MOST_PLANS: usize = 64;

/// What a plan is made of, but for the user's features.
#[derive(Clone, Copy, Debug, PartialEq, Eq)]
pub struct PlanOf {
    /// The number of the face, which no other one has.
    pub face: u64,
    pub script: Option<Script>,
    pub direction: Direction,
    pub language: Option<Language>,
    pub rounds: Rounds,
    pub break_flags: BreakFlags,
    pub base_search: BaseSearch,
    pub zero_context: ZeroContext,
}

/// A plan, and what it was made of.
pub struct Entry {
    of: PlanOf,
    features: List<UserFeature>,
    pub plan: ShapePlan,
}

impl Entry {
    /// Where memory is refused there is no entry.
    pub fn new(of: PlanOf, features: &[UserFeature], plan: ShapePlan) -> Result<Self, ShaperError> {
        let features = list(features, |feature: &UserFeature| *feature)?;
        Ok(Entry { of, features, plan })
    }
}

/// `sengadlit_plan_cache_t`. A plan that is used is out of it, so that a callback may use the cache of its call.
#[derive(Default)]
pub struct PlanCache {
    // That which was used last is the last.
    entries: RefCell<Vec<Entry>>,
}

impl PlanCache {
    /// Takes out the plan that is made of this.
    pub fn take(&self, of: &PlanOf, features: &[UserFeature]) -> Option<Entry> {
        let mut entries = self.entries.borrow_mut();
        let is_it = |entry: &Entry| entry.of == *of && entry.features.as_slice() == features;
        let place = entries.iter().rposition(is_it)?;
        Some(entries.remove(place))
    }

    /// Puts a plan in, and leaves one out that wasn't used for longest where there are too many, or memory is refused.
    pub fn put(&self, entry: Entry) {
        let mut entries = self.entries.borrow_mut();
        if entries.len() >= MOST_PLANS || (entries.try_reserve(1).is_err() && !entries.is_empty()) {
            entries.remove(0);
        }
        if entries.len() < entries.capacity() {
            entries.push(entry);
        }
    }

    /// How many plans there are.
    pub fn len(&self) -> usize {
        self.entries.borrow().len()
    }

    /// Drops all plans.
    pub fn clear(&self) {
        self.entries.borrow_mut().clear();
    }
}

#[cfg(test)]
mod tests {
    use super::{Entry, MOST_PLANS, PlanCache, PlanOf};
    use sengadlit::buffer::Direction;
    use sengadlit::opentype::{Face, ShapePlan};
    use sengadlit::ot_shape_normalize::Rounds;
    use sengadlit::plan::{BaseSearch, BreakFlags, ZeroContext};

    fn of(face: u64) -> PlanOf {
        PlanOf {
            face,
            script: None,
            direction: Direction::LeftToRight,
            language: None,
            rounds: Rounds::AsCode,
            break_flags: BreakFlags::AsCode,
            base_search: BaseSearch::AllConsonants,
            zero_context: ZeroContext::NewSpec,
        }
    }

    #[test]
    fn the_plan_goes_that_was_not_used_for_longest() {
        let face = Face::parse(include_bytes!("../../../fonts/sample.ttf"), 0).unwrap();
        let cache = PlanCache::default();
        let make = |number| {
            let plan = ShapePlan::builder().build(&face).unwrap();
            cache.put(Entry::new(of(number), &[], plan).unwrap());
        };
        (0..MOST_PLANS as u64).for_each(make);
        cache.put(cache.take(&of(0), &[]).unwrap());
        make(99);
        assert_eq!(cache.len(), MOST_PLANS);
        let is_there = |number| cache.take(&of(number), &[]).is_some();
        assert_eq!([0, 1, 2, 99].map(is_there), [true, false, true, true]);
        assert!(!is_there(0));
    }
}
