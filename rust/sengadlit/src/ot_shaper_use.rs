//! The universal shaper. Its hooks are methods of [`UNIVERSAL_SHAPER`]; between stages of lookups
//! [`run_pause`] runs its pauses [`SetupSyllablesUse`], [`RecordRphf`], [`RecordPref`] and
//! [`ReorderUse`].
//!
//! [`run_pause`]: crate::run_pause
//! [`SetupSyllablesUse`]: crate::Pause::SetupSyllablesUse
//! [`RecordRphf`]: crate::Pause::RecordRphf
//! [`RecordPref`]: crate::Pause::RecordPref
//! [`ReorderUse`]: crate::Pause::ReorderUse

pub use crate::generated::shapers_universal::ot_shaper_use::{
    Category, category, compose, record_pref_in, record_rphf_in, set_categories_in,
    setup_syllables_use, setup_syllables_use_by_bytes,
};
pub use crate::plan::UniversalPlan;
pub use crate::shaper::UNIVERSAL_SHAPER;
