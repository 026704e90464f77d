// Generated from crates/shapers_clusters/src/lib.rt by rust/erase; edit the source.

//! The laws of clusters and glyph flags: what merges and moves do to any list of glyphs. Each
//! function here does nothing, and its contract is the law.

pub mod carried_groups;
pub mod floods;
