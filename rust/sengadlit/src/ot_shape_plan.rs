//! The plan of a text: what a script, a direction, a font and the user's features decide before a
//! text is seen.
//!
//! [`EnginePlan::new`] chooses the shaper, collects what it and the user request, joins requests by
//! tag, gives each feature its bits of a glyph's mask, and puts the font's lookups into stages. A
//! caller's [`FontFeatures`] says which lookups a feature has. [`EnginePlan::with_choices`] also takes
//! what a caller chooses of the shapers' ways, as [`Plan::builder`](crate::Plan::builder) does.
//!
//! ```
//! use sengadlit::alloc::Global;
//! use sengadlit::font::NominalOnly;
//! use sengadlit::map::TableIndex;
//! use sengadlit::ot_shape_plan::{FontFeatures, EnginePlan};
//! use sengadlit::{Direction, Script, Tag};
//!
//! /// A font that has ligatures, by lookup 4 of GSUB.
//! struct Ligatures;
//!
//! impl FontFeatures for Ligatures {
//!     fn has_table(&self, table: TableIndex) -> bool {
//!         table == TableIndex::GSUB
//!     }
//!     fn chosen_script(&self, _: TableIndex) -> Option<Tag> {
//!         Some(Tag(*b"latn"))
//!     }
//!     fn found_script(&self, _: TableIndex) -> bool {
//!         true
//!     }
//!     fn feature_lookups(&self, table: TableIndex, tag: Tag) -> Option<&[u16]> {
//!         (table == TableIndex::GSUB && tag == Tag(*b"liga")).then_some(&[4])
//!     }
//!     fn any_feature_lookups(&self, _: TableIndex, _: Tag) -> Option<&[u16]> {
//!         None
//!     }
//!     fn required_feature(&self, _: TableIndex) -> Option<Tag> {
//!         None
//!     }
//!     fn required_lookups(&self, _: TableIndex) -> &[u16] {
//!         &[]
//!     }
//! }
//!
//! let script = Some(Script(*b"Latn"));
//! let font = NominalOnly(|_| None);
//! let plan = EnginePlan::new(Global, script, Direction::LeftToRight, &font, &Ligatures, &[])?;
//!
//! // variations of the font have a stage of their own, which is empty here
//! let stages: Vec<_> = plan.stages().iter().map(|stage| stage.start..stage.end).collect();
//! assert_eq!(stages, [0..0, 0..1]);
//! assert_eq!(plan.lookups()[0].index, 4);
//! assert_eq!(plan.lookups()[0].mask, 1 << 31);
//! # Ok::<(), sengadlit::ShaperError>(())
//! ```

pub use crate::generated::shapers_plan::ot_map::{
    F_GLOBAL_SEARCH, F_RANDOM, FontFeatures, Stage, StageLookup,
};
pub use crate::generated::shapers_plan::ot_shape_plan::{
    DriverMasks, EnginePlan, ShapeChoices, UserFeature, UserRange, driver_masks,
};

#[cfg(test)]
mod tests {
    use super::{EnginePlan, ShapeChoices, UserFeature};
    use crate::alloc::Global;
    use crate::buffer::{Direction, Script, Tag};
    use crate::font::{FeaturesOnly, NominalOnly};
    use crate::map::TableIndex;
    use crate::plan::{BaseSearch, BreakFlags, Pause, StretchStart, ZeroContext};
    use crate::shaper::Shaper;
    use crate::test_font::TestFont;
    use std::vec::Vec;

    /// A font of the script Khmer, in which every feature of GSUB has lookups 9 and 3.
    const KHMER: TestFont = TestFont {
        tables: &[TableIndex::GSUB],
        script: Tag(*b"khmr"),
        lookups: |table, _| (table == TableIndex::GSUB).then_some(&[9, 3]),
    };

    fn plan_of(users: &[UserFeature]) -> EnginePlan {
        let script = Some(Script(*b"Khmr"));
        let font = NominalOnly(|_| None);
        EnginePlan::new(Global, script, Direction::LeftToRight, &font, &KHMER, users).unwrap()
    }

    #[test]
    fn khmer_has_its_pauses_and_each_lookup_once_a_stage() {
        let plan = plan_of(&[]);
        assert_eq!(plan.shaper(), Some(Shaper::Khmer));
        assert_eq!(plan.direction(), Direction::LeftToRight);
        let pauses: Vec<_> = plan.stages().iter().map(|stage| stage.pause).collect();
        let khmer = [
            Pause::SetupSyllablesKhmer,
            Pause::ReorderKhmer,
            Pause::SyllabicClearVar,
        ];
        assert_eq!(pauses[0], None);
        assert_eq!(pauses[1..4], khmer.map(Some));
        assert_eq!(pauses[4..], [None]);
        for stage in plan.stages().iter().filter(|stage| stage.start < stage.end) {
            let lookups = &plan.lookups()[stage.start..stage.end];
            assert_eq!(
                lookups
                    .iter()
                    .map(|lookup| lookup.index)
                    .collect::<Vec<_>>(),
                [3, 9]
            );
        }
        assert!(plan.positioning().is_empty() && !plan.applies_gpos());
        assert_eq!(
            plan.plan().ot_map.chosen_script(TableIndex::GSUB),
            Some(Tag(*b"khmr"))
        );
    }

    #[test]
    fn bits_of_features_are_apart() {
        let masks = plan_of(&[]).masks();
        let fractions = [masks.frac, masks.numr, masks.dnom];
        assert!(
            fractions
                .iter()
                .all(|mask| mask.is_power_of_two() && *mask >= 16)
        );
        assert_eq!(
            fractions
                .iter()
                .fold(0, |all, mask| all | mask)
                .count_ones(),
            3
        );
        assert_eq!((masks.rtlm, masks.vert), (0, 0));
    }

    /// A caller's choices are the plan's, and the shaper keeps those that it has.
    #[test]
    fn choices_are_the_callers() {
        let choices = ShapeChoices {
            stretch_start: StretchStart::Centred,
            break_flags: BreakFlags::Sound,
            base_search: BaseSearch::AllConsonants,
            zero_context: ZeroContext::NewSpec,
        };
        let plan_for = |script, choices| {
            let font = FeaturesOnly(|_| false);
            let (script, direction) = (Some(Script(script)), Direction::LeftToRight);
            EnginePlan::with_choices(Global, script, direction, &font, &KHMER, &[], choices)
                .unwrap()
        };
        for wanted in [ShapeChoices::default(), choices] {
            let arabic = plan_for(*b"Arab", wanted);
            let kept = arabic.plan().plan_data.arabic().unwrap();
            let seen = (kept.stretch_start, kept.break_flags);
            assert_eq!(seen, (wanted.stretch_start, wanted.break_flags));
            assert_eq!(arabic.plan().base_search, wanted.base_search);
            let indic = plan_for(*b"Deva", wanted);
            let kept = indic.plan().plan_data.indic().unwrap();
            assert_eq!(kept.base_search, wanted.base_search);
            // (this font has no script of the newer specification)
            assert_eq!(indic.plan().zero_context, wanted.zero_context);
        }
        let default = plan_for(*b"Khmr", ShapeChoices::default());
        assert_eq!(default, plan_of(&[]));
    }

    #[test]
    fn a_users_feature_sets_the_bits_of_its_range() {
        let user = UserFeature {
            tag: Tag(*b"salt"),
            value: 2,
            start: 3,
            end: 9,
        };
        let everywhere = UserFeature {
            start: 0,
            end: u32::MAX,
            ..user
        };
        let plan = plan_of(&[everywhere, UserFeature { value: 3, ..user }]);
        let [range] = plan.ranges() else {
            panic!("one of them is for a range")
        };
        assert_eq!((range.start, range.end), (3, 9));
        assert_eq!(range.mask.count_ones(), 2);
        assert_eq!(range.value, range.mask);
        let elsewhere = plan.plan().ot_map.global_bits() & range.mask;
        assert_eq!(elsewhere, 2 << range.mask.trailing_zeros());
        assert_eq!(plan.try_clone().unwrap(), plan);
        assert_ne!(plan, plan_of(&[everywhere]));
    }
}
