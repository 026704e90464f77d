// Generated from crates/shapers_universal/src/lib.rt by rust/erase; edit the source.

//! The universal shaper.

pub mod ot_shaper_use;
