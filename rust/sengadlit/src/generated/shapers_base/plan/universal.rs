// Generated from crates/shapers_base/src/plan/universal.rt by rust/erase; edit the source.

use super::ArabicPlan;

/// What the universal shaper keeps in the plan.
#[derive(Clone, Copy, Debug, PartialEq, Eq, Hash)]
pub struct UniversalPlan {
    /// The mask of `rphf`.
    pub rphf_mask: u32,
    /// The plan of Arabic, for scripts whose letters join.
    pub arabic_plan: Option<ArabicPlan>,
}
