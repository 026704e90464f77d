// Generated from crates/shapers_base/src/lib.rt by rust/erase; edit the source.

//! What a shaper is given: the buffer, the font, the Unicode tables, the map and the plan.

pub mod font;
pub mod map;
pub mod plan;

pub use crate::generated::shapers_buffer::buffer;
