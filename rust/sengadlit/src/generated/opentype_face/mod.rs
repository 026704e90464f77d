// Generated from crates/opentype_face/src/lib.rt by rust/erase; edit the source.

//! The tables of an OpenType font over its bytes.

pub mod bytes;
mod character_pages;
pub mod character_table;
pub mod characters;
pub mod class_table;
pub mod classes;
pub mod cmap;
pub mod directory;
pub mod face;
pub mod glyph_sets;
pub mod glyph_tables;
mod ignored;
mod legacy_tables;
pub mod lookup;
mod mac_names;
pub mod metrics;
pub mod names;
pub mod origins;
pub mod outlines;
pub mod ranges;
pub mod variants;
