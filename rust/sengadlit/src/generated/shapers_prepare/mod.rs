// Generated from crates/shapers_prepare/src/lib.rt by rust/erase; edit the source.

//! What is done to a text before normalization: the properties of its characters, its graphemes'
//! clusters, a circle in front, its direction, characters for another direction, and circles between
//! vowels.

pub mod ot_shape_prepare;
