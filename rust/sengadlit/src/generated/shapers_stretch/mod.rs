// Generated from crates/shapers_stretch/src/lib.rt by rust/erase; edit the source.

//! Marks of Arabic and Syriac that stretch over a word.

pub mod ot_shaper_arabic_stretch;
