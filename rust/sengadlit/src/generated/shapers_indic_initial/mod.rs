// Generated from crates/shapers_indic_initial/src/lib.rt by rust/erase; edit the source.

//! The initial reordering of Indic syllables.

pub mod ot_shaper_indic_initial;
