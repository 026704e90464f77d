// Generated from crates/shapers_indic_final/src/lib.rt by rust/erase; edit the source.

//! The final reordering of Indic syllables.

pub mod ot_shaper_indic_final;
