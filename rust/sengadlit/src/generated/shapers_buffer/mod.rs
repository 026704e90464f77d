// Generated from crates/shapers_buffer/src/lib.rt by rust/erase; edit the source.

//! The buffer of glyphs, and what every hook needs of it.

pub mod buffer;
