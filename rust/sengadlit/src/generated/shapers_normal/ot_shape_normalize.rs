// Generated from crates/shapers_normal/src/ot_shape_normalize.rt by rust/erase; edit the source.

//! The three rounds: decompose, reorder, recompose.

mod context;
mod decomposing;
mod laws;
mod normalizing;
mod numbering;
mod properties;
mod recomposing;
mod sorting;
mod variants;

pub use context::NormalizeContext;
pub use decomposing::{MAX_STEPS, decompose};
pub use laws::length_bound;
pub use normalizing::{Rounds, normalize};
pub use recomposing::recompose_in;
pub use sorting::{MAX_COMBINING_MARKS, order_marks_in, sort_marks_in};
