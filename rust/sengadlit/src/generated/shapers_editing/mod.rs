// Generated from crates/shapers_editing/src/lib.rt by rust/erase; edit the source.

//! What cursors, terminals and editors need of a shaped text: where a caret may stand, and what is
//! shaped again where a stretch of the text is replaced.

mod caret;
mod edits;

pub use caret::caret_stops;
pub use edits::{Edit, Unaffected, affected, affected_spans};
