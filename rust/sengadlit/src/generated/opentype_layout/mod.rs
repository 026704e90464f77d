// Generated from crates/opentype_layout/src/lib.rt by rust/erase; edit the source.

//! What lookups of GSUB and GPOS have in common: which glyphs they see, where they may begin, and
//! what their rules look for.

pub mod bits;
mod budget;
pub mod class_refs;
pub mod context_tables;
pub mod face_tables;
pub mod features;
pub mod glyph_text;
pub mod grid;
pub mod heads;
pub mod input;
pub mod keys;
pub mod looking;
pub mod lookup_rows;
pub mod pair_tables;
pub mod pattern;
pub mod places;
pub mod position_tables;
pub mod rule_heads;
pub mod rules;
pub mod sets;
pub mod sight;
pub mod starts;
pub mod substitution_tables;
pub mod subtable_tables;
pub mod tables;
