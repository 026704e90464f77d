// Generated from crates/shapers_myanmar/src/lib.rt by rust/erase; edit the source.

//! The shaper of Myanmar.

pub mod ot_shaper_myanmar;
