// Generated from crates/shapers_indic/src/lib.rt by rust/erase; edit the source.

//! The shaper of the Indic scripts.

pub mod ot_shaper_indic;
