// Generated from crates/shapers_syllabic/src/lib.rt by rust/erase; edit the source.

//! What the shapers of syllabic scripts share.

pub mod ot_shaper_syllabic;
