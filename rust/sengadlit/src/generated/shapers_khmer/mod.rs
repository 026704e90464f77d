// Generated from crates/shapers_khmer/src/lib.rt by rust/erase; edit the source.

//! The shaper of Khmer.

pub mod ot_shaper_khmer;
