// Generated from crates/shapers_hangul/src/lib.rt by rust/erase; edit the source.

//! The shaper of Hangul.

pub mod ot_shaper_hangul;
