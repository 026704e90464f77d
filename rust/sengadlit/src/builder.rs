//! Plans and maps made from what a caller has.

use crate::alloc::{AllocError, Global};
use crate::buffer::{Script, ShaperError, Tag};
use crate::generated::shapers_plan::ot_map::CompiledMap;
use crate::map::{FeatureMap, Map};
use crate::ot_shape_plan::FontFeatures;
use crate::plan::{BaseSearch, BreakFlags, Plan, Request, StretchStart, ZeroContext};
use crate::shaper::Shaper;
use core::error::Error;
use core::fmt;
use core::ops::Range;

impl FeatureMap {
    /// A feature with the bits of a glyph's mask that turn it on, and the place of its lookups among
    /// the plan's stages; beyond them it has none. A stage here is a range of lookups: those of one
    /// feature, or of several that are applied together between two pauses.
    #[inline]
    pub const fn new(tag: Tag, mask: u32, stage: usize) -> Self {
        FeatureMap { tag, mask, stage }
    }
}

impl Plan {
    /// A builder of a plan, so far without script and features.
    #[inline]
    pub fn builder<'a>() -> PlanBuilder<'a> {
        PlanBuilder::default()
    }

    /// The plan of a shaper by what is requested of a font: the features that the font has, each
    /// with its bits of a glyph's mask, and their lookups in stages. Requests are joined by tag, and
    /// bits given out, as HarfBuzz's map does it; the features of GPOS count for
    /// [`has_gpos_mark`](Plan::has_gpos_mark) alone.
    ///
    /// A caller that has no planner of its own takes [`EnginePlan::new`], which makes the requests
    /// for a script and keeps the lookups with their masks.
    ///
    /// [`EnginePlan::new`]: crate::ot_shape_plan::EnginePlan::new
    ///
    /// ```
    /// use sengadlit::alloc::Global;
    /// use sengadlit::font::FeaturesOnly;
    /// use sengadlit::map::TableIndex;
    /// use sengadlit::ot_shape_plan::FontFeatures;
    /// use sengadlit::{Plan, Planner, Shaper, Tag, script};
    ///
    /// /// A font whose GSUB has forms before the base, by lookup 4.
    /// struct Khmer;
    ///
    /// impl FontFeatures for Khmer {
    ///     fn feature_lookups(&self, table: TableIndex, tag: Tag) -> Option<&[u16]> {
    ///         (table == TableIndex::GSUB && tag == Tag(*b"pref")).then_some(&[4])
    ///     }
    /// #   fn has_table(&self, table: TableIndex) -> bool { table == TableIndex::GSUB }
    /// #   fn chosen_script(&self, _: TableIndex) -> Option<Tag> { Some(Tag(*b"khmr")) }
    /// #   fn found_script(&self, _: TableIndex) -> bool { true }
    /// #   fn any_feature_lookups(&self, _: TableIndex, _: Tag) -> Option<&[u16]> { None }
    /// #   fn required_feature(&self, _: TableIndex) -> Option<Tag> { None }
    /// #   fn required_lookups(&self, _: TableIndex) -> &[u16] { &[] }
    ///     // and what else a plan reads
    /// }
    ///
    /// let mut planner = Planner::new(Global, Some(script::KHMER));
    /// let font = FeaturesOnly(|tag| tag == Tag(*b"pref"));
    /// Shaper::Khmer.collect_features(&font, &mut planner)?;
    /// Shaper::Khmer.override_features(&mut planner)?;
    /// let plan = Plan::from_requests(Shaper::Khmer, script::KHMER, planner.requests(), &Khmer)?;
    ///
    /// let mask = plan.plan_data.khmer().map(|kept| kept.mask_array[0]);
    /// assert_eq!(mask, Some(plan.ot_map.one_mask(Tag(*b"pref"))));
    /// assert_ne!(mask, Some(0));
    /// # Ok::<(), sengadlit::ShaperError>(())
    /// ```
    ///
    /// # Errors
    ///
    /// [`ShaperError::Memory`].
    pub fn from_requests<L: FontFeatures>(
        shaper: impl Into<Option<Shaper>>,
        script: impl Into<Option<Script>>,
        requests: &[Request],
        features: &L,
    ) -> Result<Self, ShaperError> {
        let compiled = CompiledMap::new(Global, features, requests)?;
        let mut plan = Plan::new(script.into(), compiled.map);
        plan.has_gpos_mark = plan.ot_map.one_mask(Tag(*b"mark")) != 0;
        Ok(match shaper.into() {
            Some(shaper) => shaper.with_data(plan),
            None => plan,
        })
    }
}

/// Builds a [`Plan`] with its [`Map`], from slices.
///
/// ```
/// use sengadlit::map::FeatureMap;
/// use sengadlit::{Plan, Script, Shaper, Tag};
///
/// let plan = Plan::builder()
///     .script(Script(*b"Khmr"))
///     .features(&[FeatureMap::new(Tag(*b"pref"), 0x10, 0)])
///     .stages(&[0..2])
///     .lookups(&[14, 15])
///     .build_for(Shaper::Khmer)?;
/// assert_eq!(plan.ot_map.one_mask(Tag(*b"pref")), 0x10);
/// # Ok::<(), sengadlit::plan::PlanError>(())
/// ```
#[must_use = "a builder makes nothing until it is built"]
#[derive(Clone, Copy, Debug, Default)]
pub struct PlanBuilder<'a> {
    script: Option<Script>,
    features: &'a [FeatureMap],
    stages: &'a [Range<usize>],
    lookups: &'a [u16],
    global_mask: u32,
    chosen_script: Option<Tag>,
    found_script: bool,
    has_gpos_mark: bool,
    stretch_start: StretchStart,
    break_flags: BreakFlags,
    base_search: BaseSearch,
    zero_context: ZeroContext,
}

impl<'a> PlanBuilder<'a> {
    /// The script of the text, if it is known.
    #[inline]
    pub fn script(self, script: impl Into<Option<Script>>) -> Self {
        PlanBuilder {
            script: script.into(),
            ..self
        }
    }

    /// The features of the map: for each its tag, the bits of a glyph's mask that turn it on, and the
    /// place of its lookups among the [`stages`](PlanBuilder::stages).
    #[inline]
    pub fn features(self, features: &'a [FeatureMap]) -> Self {
        PlanBuilder { features, ..self }
    }

    /// The stages, in the order in which they run over the text: for each the places of its lookups
    /// in the list of [`lookups`](PlanBuilder::lookups). Between two stages a pause may stand. (Indic
    /// looks up in the stage of a feature which lookups it has; no other shaper reads stages.)
    #[inline]
    pub fn stages(self, stages: &'a [Range<usize>]) -> Self {
        PlanBuilder { stages, ..self }
    }

    /// The list of lookups, by their numbers in GSUB.
    #[inline]
    pub fn lookups(self, lookups: &'a [u16]) -> Self {
        PlanBuilder { lookups, ..self }
    }

    /// The bits of the features that hold for the whole text: those with which the caller begins the
    /// mask of each glyph, before [`setup_masks`](Shaper::setup_masks) adds to it. (The universal
    /// shaper gives no glyph the bits of a joining form that has just these.)
    #[inline]
    pub fn global_mask(self, global_mask: u32) -> Self {
        PlanBuilder {
            global_mask,
            ..self
        }
    }

    /// The script of the font that was chosen for the text, as `dev2`, if one was.
    #[inline]
    pub fn chosen_script(self, script: impl Into<Option<Tag>>) -> Self {
        PlanBuilder {
            chosen_script: script.into(),
            ..self
        }
    }

    /// Whether GSUB has the script that was requested.
    #[inline]
    pub fn found_script(self, found_script: bool) -> Self {
        PlanBuilder {
            found_script,
            ..self
        }
    }

    /// Whether GPOS places marks.
    #[inline]
    pub fn has_gpos_mark(self, has_gpos_mark: bool) -> Self {
        PlanBuilder {
            has_gpos_mark,
            ..self
        }
    }

    /// Where the tiles of a stretched mark begin.
    #[inline]
    pub fn stretch_start(self, stretch_start: StretchStart) -> Self {
        PlanBuilder {
            stretch_start,
            ..self
        }
    }

    /// Which places are flagged unsafe to break, where letters join, in Thai with private use forms, in
    /// Hangul, and between syllables with forms by their places.
    #[inline]
    pub fn break_flags(self, break_flags: BreakFlags) -> Self {
        PlanBuilder {
            break_flags,
            ..self
        }
    }

    /// Among which consonants Indic looks for the base of a syllable.
    #[inline]
    pub fn base_search(self, base_search: BaseSearch) -> Self {
        PlanBuilder {
            base_search,
            ..self
        }
    }

    /// Where Indic's questions to the font leave out rules that need context.
    #[inline]
    pub fn zero_context(self, zero_context: ZeroContext) -> Self {
        PlanBuilder {
            zero_context,
            ..self
        }
    }

    /// The map of the features, stages and lookups.
    ///
    /// # Errors
    ///
    /// `PlanError`, which says what can't be a map's, or that memory was refused.
    pub fn build_map(self) -> Result<Map, PlanError> {
        let map = Map::from_slices(
            Global,
            self.features,
            self.stages,
            self.lookups,
            self.global_mask,
            self.chosen_script,
            self.found_script,
        );
        // want of memory is its only refusal
        map.map_err(|_| PlanError::Memory)?
            .ok_or_else(|| self.fault())
    }

    /// The plan, without what a shaper keeps in it.
    ///
    /// # Errors
    ///
    /// Those of [`PlanBuilder::build_map`].
    pub fn build(self) -> Result<Plan, PlanError> {
        let mut plan = Plan::new(self.script, self.build_map()?);
        plan.has_gpos_mark = self.has_gpos_mark;
        plan.stretch_start = self.stretch_start;
        plan.break_flags = self.break_flags;
        plan.base_search = self.base_search;
        plan.zero_context = self.zero_context;
        Ok(plan)
    }

    /// The plan, with what the shaper keeps in it; see [`Shaper::with_data`].
    ///
    /// # Errors
    ///
    /// Those of [`PlanBuilder::build_map`].
    pub fn build_for(self, shaper: Shaper) -> Result<Plan, PlanError> {
        Ok(shaper.with_data(self.build()?))
    }

    // What is no map's.
    fn fault(self) -> PlanError {
        let touches_flags = |feature: &FeatureMap| feature.mask & 7 != 0;
        match self.features.iter().position(touches_flags) {
            Some(place) => PlanError::FeatureMask(place),
            None => PlanError::Stage(self.stray_stage()),
        }
    }

    // The first stage that isn't a range of the lookups.
    fn stray_stage(self) -> usize {
        let is_range =
            |stage: &Range<usize>| stage.start <= stage.end && stage.end <= self.lookups.len();
        self.stages
            .iter()
            .take_while(|stage| is_range(stage))
            .count()
    }
}

/// Why a plan can't be built. Places count from 0.
#[derive(Clone, Copy, Debug, PartialEq, Eq)]
#[non_exhaustive]
pub enum PlanError {
    /// A request for memory was refused.
    Memory,
    /// The mask of the feature at this place touches the low three bits, which are glyph flags.
    FeatureMask(usize),
    /// The stage at this place isn't a range of the lookups.
    Stage(usize),
}

impl fmt::Display for PlanError {
    fn fmt(&self, f: &mut fmt::Formatter<'_>) -> fmt::Result {
        match self {
            PlanError::Memory => AllocError.fmt(f),
            PlanError::FeatureMask(place) => {
                write!(f, "the mask of feature {place} touches a glyph flag")
            }
            PlanError::Stage(place) => write!(f, "stage {place} isn't a range of the lookups"),
        }
    }
}

impl Error for PlanError {}

#[cfg(test)]
mod tests {
    use super::*;
    use crate::buffer::Direction;
    use crate::font::NominalOnly;
    use crate::map::{F_GLOBAL, F_NONE, TableIndex};
    use crate::ot_shape_plan::EnginePlan;
    use crate::plan::{PlanData, Planner};
    use crate::test_font::TestFont;
    use std::string::ToString;

    const PREF: FeatureMap = FeatureMap::new(Tag(*b"pref"), 0x10, 1);
    const RLIG: FeatureMap = FeatureMap::new(Tag(*b"rlig"), 0x24, 0);

    fn error_of(plan: PlanBuilder<'_>) -> PlanError {
        plan.build().unwrap_err()
    }

    #[test]
    fn a_plan_has_what_it_is_built_of() {
        let plan = Plan::builder()
            .script(Script(*b"Khmr"))
            .features(&[PREF])
            .stages(&[0..0, 0..2])
            .lookups(&[14, 15])
            .global_mask(0x100)
            .chosen_script(Tag(*b"khmr"))
            .found_script(true)
            .has_gpos_mark(true)
            .stretch_start(StretchStart::Centred)
            .break_flags(BreakFlags::Sound)
            .base_search(BaseSearch::AllConsonants)
            .zero_context(ZeroContext::NewSpec)
            .build()
            .unwrap();
        let table = crate::map::TableIndex::GSUB;
        assert_eq!(plan.script, Some(Script(*b"Khmr")));
        assert!(plan.has_gpos_mark);
        assert_eq!(plan.stretch_start, StretchStart::Centred);
        assert_eq!(plan.break_flags, BreakFlags::Sound);
        assert_eq!(plan.base_search, BaseSearch::AllConsonants);
        assert_eq!(plan.zero_context, ZeroContext::NewSpec);
        assert_eq!(plan.plan_data, PlanData::None);
        assert_eq!(plan.ot_map.one_mask(PREF.tag), 0x10);
        assert_eq!(plan.ot_map.stage_of(table, PREF.tag), Some(1));
        assert_eq!(plan.ot_map.stage_lookup_range(table, 1), 0..2);
        assert_eq!(plan.ot_map.lookups(&(0..2)), [14, 15]);
        assert_eq!(plan.ot_map.global_bits(), 0x100);
        assert_eq!(plan.ot_map.chosen_script(table), Some(Tag(*b"khmr")));
        assert!(plan.ot_map.found_script(table));
    }

    /// A font of Khmer in which every feature of GSUB has lookups 9 and 3, and GPOS places marks.
    const KHMER: TestFont = TestFont {
        tables: &[TableIndex::GSUB, TableIndex::GPOS],
        script: Tag(*b"khmr"),
        lookups: |table, tag| {
            (table == TableIndex::GSUB || tag == Tag(*b"mark")).then_some(&[9, 3])
        },
    };

    #[test]
    fn a_plan_of_requests_has_bits_stages_and_lookups() {
        let feature = |tag: &[u8; 4], flags| Request::Feature(Tag(*tag), flags, 1);
        let pause = Request::Pause(None);
        let requests = [feature(b"pref", F_NONE), pause, feature(b"abvs", F_GLOBAL)];
        let plan = Plan::from_requests(Shaper::Khmer, Script(*b"Khmr"), &requests, &KHMER).unwrap();
        assert_eq!(plan.script, Some(Script(*b"Khmr")));
        let (map, gsub) = (&plan.ot_map, TableIndex::GSUB);
        assert_eq!(map.global_bits(), 1 << 31);
        assert_eq!(map.one_mask(Tag(*b"abvs")), 1 << 31);
        let pref = map.one_mask(Tag(*b"pref"));
        assert!(pref.is_power_of_two() && pref > 4 && pref != 1 << 31);
        assert_eq!(plan.plan_data.khmer().unwrap().mask_array[0], pref);
        for (stage, tag) in [(0, b"pref"), (1, b"abvs")] {
            assert_eq!(map.stage_of(gsub, Tag(*tag)), Some(stage));
            assert_eq!(map.lookups(&map.stage_lookup_range(gsub, stage)), [3, 9]);
        }
        assert!(!plan.has_gpos_mark);
        let marks = [feature(b"mark", F_GLOBAL)];
        let plan = Plan::from_requests(None, None, &marks, &KHMER).unwrap();
        assert_eq!((plan.has_gpos_mark, plan.plan_data), (true, PlanData::None));
    }

    #[test]
    fn a_plan_of_a_planners_requests_is_that_of_the_text() {
        let (font, script) = (NominalOnly(|_| None), Some(Script(*b"Khmr")));
        let left = Direction::LeftToRight;
        let whole = EnginePlan::new(Global, script, left, &font, &KHMER, &[]).unwrap();
        let mut planner = Planner::new(Global, script);
        Shaper::Khmer.collect_features(&font, &mut planner).unwrap();
        Shaper::Khmer.override_features(&mut planner).unwrap();
        let plan = Plan::from_requests(Shaper::Khmer, script, planner.requests(), &KHMER).unwrap();
        let map = &plan.ot_map;
        for tag in [b"pref", b"blwf", b"abvf", b"pstf", b"cfar"] {
            assert_eq!(
                map.one_mask(Tag(*tag)) == 0,
                whole.plan().ot_map.one_mask(Tag(*tag)) == 0
            );
        }
    }

    #[test]
    fn a_plan_is_empty_where_nothing_is_said() {
        let plan = Plan::builder().build().unwrap();
        assert_eq!((plan.script, plan.has_gpos_mark), (None, false));
        assert_eq!(plan.stretch_start, StretchStart::AsCode);
        assert_eq!(plan.break_flags, BreakFlags::AsCode);
        assert_eq!(plan.base_search, BaseSearch::WithoutMedials);
        assert_eq!(plan.zero_context, ZeroContext::OldSpec);
        assert_eq!(plan.ot_map.global_bits(), 0);
        assert_eq!(plan.ot_map.chosen_script(TableIndex::GSUB), None);
        assert!(!plan.ot_map.found_script(TableIndex::GSUB));
    }

    // Of a font that has DFLT alone a script was chosen, and the one that was requested isn't found.
    #[test]
    fn a_chosen_script_may_be_another_than_the_requested() {
        let built = Plan::builder().chosen_script(Tag(*b"DFLT")).build();
        let map = built.unwrap().ot_map;
        let gsub = TableIndex::GSUB;
        assert_eq!(map.chosen_script(gsub), Some(Tag(*b"DFLT")));
        assert!(!map.found_script(gsub));
        let map = Plan::builder().found_script(true).build().unwrap().ot_map;
        assert!(map.chosen_script(gsub).is_none() && map.found_script(gsub));
    }

    #[test]
    fn a_plan_is_built_with_the_data_of_its_shaper() {
        let plan = Plan::builder().features(&[PREF]).build_for(Shaper::Khmer);
        let plan = plan.unwrap();
        assert_eq!(plan.plan_data.khmer().unwrap().mask_array[0], 0x10);
        let plan = Plan::builder().build_for(Shaper::Thai).unwrap();
        assert_eq!(plan.plan_data, PlanData::None);
    }

    #[test]
    fn what_is_no_map_is_an_error_with_its_place() {
        let flagged = Plan::builder().features(&[PREF, RLIG]);
        assert_eq!(error_of(flagged), PlanError::FeatureMask(1));
        let long = Plan::builder().stages(&[0..1, 0..2]).lookups(&[9]);
        assert_eq!(error_of(long), PlanError::Stage(1));
        let backwards = Range { start: 1, end: 0 };
        let stages = [backwards];
        let backwards = Plan::builder().stages(&stages).lookups(&[9]);
        assert_eq!(error_of(backwards), PlanError::Stage(0));
        assert_eq!(
            error_of(flagged).to_string(),
            "the mask of feature 1 touches a glyph flag"
        );
        assert_eq!(
            error_of(long).to_string(),
            "stage 1 isn't a range of the lookups"
        );
        for flag in [1, 2, 4] {
            let feature = FeatureMap::new(Tag(*b"rlig"), 0x20 | flag, 0);
            let features = [feature];
            let flagged = Plan::builder().features(&features);
            assert_eq!(error_of(flagged), PlanError::FeatureMask(0), "{flag}");
        }
    }
}
