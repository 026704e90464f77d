//! The planner and the plan: what a shaper requests of a font, and what it keeps for one script and
//! font.

pub use crate::builder::{PlanBuilder, PlanError};
pub use crate::generated::shapers_base::plan::{
    ArabicPlan, BaseSearch, BlwfMode, BreakFlags, Category, HangulPlan, IndicConfig, IndicPlan,
    IndicWouldSubstituteFeature, JoiningType, KhmerPlan, NormalizationMode, Pause, Plan, PlanData,
    Planner, Position, Preprocess, RephMode, RephPosition, Request, StretchStart, UniversalPlan,
    ZeroContext, ZeroWidthMarks, ot_category_t, ot_position_t,
};

impl Pause {
    /// Whether [`run_pause`](crate::run_pause) reads its spans for this pause: those that set up
    /// syllables do.
    #[inline]
    pub const fn reads_spans(self) -> bool {
        matches!(
            self,
            Pause::SetupSyllablesIndic
                | Pause::SetupSyllablesKhmer
                | Pause::SetupSyllablesMyanmar
                | Pause::SetupSyllablesUse
        )
    }
}

#[cfg(test)]
mod tests {
    use super::Pause;

    #[test]
    fn the_pauses_that_set_syllables_up_read_spans() {
        let readers = Pause::ALL.into_iter().filter(|pause| pause.reads_spans());
        assert!(readers.eq([
            Pause::SetupSyllablesIndic,
            Pause::SetupSyllablesKhmer,
            Pause::SetupSyllablesMyanmar,
            Pause::SetupSyllablesUse,
        ]));
    }
}
