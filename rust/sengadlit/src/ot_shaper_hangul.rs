//! The shaper of Korean.

pub use crate::generated::shapers_hangul::ot_shaper_hangul::{
    preprocess_text_changes, setup_masks_in,
};
pub use crate::plan::HangulPlan;
pub use crate::shaper::HANGUL_SHAPER;
