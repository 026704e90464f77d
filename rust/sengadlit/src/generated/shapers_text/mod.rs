// Generated from crates/shapers_text/src/lib.rt by rust/erase; edit the source.

//! The shapers that rewrite a text by rules of single scripts.

pub mod ot_shaper_hebrew;
pub mod ot_shaper_thai;
