//! The shaper of Hebrew.

pub use crate::generated::shapers_text::ot_shaper_hebrew::reorder_marks_in;
pub use crate::shaper::HEBREW_SHAPER;
