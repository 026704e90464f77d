// Generated from crates/shapers_normal/src/lib.rt by rust/erase; edit the source.

//! Normalization: the characters of a text become those that the font has glyphs for, in the order
//! that its lookups expect.

pub mod ot_shape_normalize;
