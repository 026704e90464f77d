//! The shaper of the Indic scripts. Its hooks are methods of [`INDIC_SHAPER`]; between stages of
//! lookups [`run_pause`] runs its pauses [`SetupSyllablesIndic`], [`InitialReordering`] and
//! [`FinalReordering`].
//!
//! [`run_pause`]: crate::run_pause
//! [`SetupSyllablesIndic`]: crate::Pause::SetupSyllablesIndic
//! [`InitialReordering`]: crate::Pause::InitialReordering
//! [`FinalReordering`]: crate::Pause::FinalReordering

pub use crate::generated::shapers_indic::ot_shaper_indic::{compose, decompose, indic_feature};
pub use crate::plan::{
    BlwfMode, Category, IndicConfig, IndicPlan, IndicWouldSubstituteFeature, Position, RephMode,
    RephPosition, ot_category_t, ot_position_t,
};
pub use crate::shaper::INDIC_SHAPER;
