//! The hooks for callers that can't know whether their conditions are met.
//!
//! [`Shaper::checked_preprocess_text`], [`Shaper::checked_setup_masks`],
//! [`Shaper::checked_reorder_marks`], [`Shaper::checked_postprocess_glyphs`] and
//! [`checked_run_pause`] test the conditions before they change anything, and return the first that
//! isn't met as an error. The other hooks have no conditions.
//!
//! [`Shaper::checked_preprocess_text`]: crate::Shaper::checked_preprocess_text
//! [`Shaper::checked_setup_masks`]: crate::Shaper::checked_setup_masks
//! [`Shaper::checked_reorder_marks`]: crate::Shaper::checked_reorder_marks
//! [`Shaper::checked_postprocess_glyphs`]: crate::Shaper::checked_postprocess_glyphs

pub use crate::generated::rustybuzz_shapers::shaper::checked::{
    CallError, Condition, checked_run_pause,
};
