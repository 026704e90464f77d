//! The shaper of Arabic and the scripts that join like it. Its hooks are methods of
//! [`ARABIC_SHAPER`]; between stages of lookups [`run_pause`] runs its pause [`RecordStch`].
//!
//! [`run_pause`]: crate::run_pause
//! [`RecordStch`]: crate::Pause::RecordStch

pub use crate::generated::shapers_arabic::ot_shaper_arabic::{
    arabic_action_t, data_create_arabic, reorder_marks_in, setup_masks_inner,
};
pub use crate::generated::shapers_stretch::ot_shaper_arabic_stretch::record_stch_in;
pub use crate::plan::{ArabicPlan, JoiningType};
pub use crate::shaper::ARABIC_SHAPER;
