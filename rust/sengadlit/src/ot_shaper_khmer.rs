//! The shaper of Khmer. Its hooks are methods of [`KHMER_SHAPER`]; between stages of lookups
//! [`run_pause`] runs its pauses [`SetupSyllablesKhmer`] and [`ReorderKhmer`].
//!
//! [`run_pause`]: crate::run_pause
//! [`SetupSyllablesKhmer`]: crate::Pause::SetupSyllablesKhmer
//! [`ReorderKhmer`]: crate::Pause::ReorderKhmer

pub use crate::generated::shapers_khmer::ot_shaper_khmer::{compose, decompose, khmer_feature};
pub use crate::plan::KhmerPlan;
pub use crate::shaper::KHMER_SHAPER;
