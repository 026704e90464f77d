//! The shaper of Thai and Lao.

pub use crate::generated::shapers_text::ot_shaper_thai::preprocess_text_changes;
pub use crate::shaper::THAI_SHAPER;
