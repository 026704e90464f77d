// Generated from crates/opentype_font/src/lib.rt by rust/erase; edit the source.

//! A font file as the shapers, normalization, plans and positions read it.

pub mod font;
pub mod lookups;
pub mod script_features;
mod stages;
pub mod text_tags;
pub mod would_apply;
