// Generated from crates/shapers_arabic/src/lib.rt by rust/erase; edit the source.

//! The shaper of Arabic and of the scripts that join like it.

pub mod ot_shaper_arabic;
