// Generated from crates/shapers_indic_final/src/ot_shaper_indic_final.rt by rust/erase; edit the source.

//! The final reordering of Indic syllables: after substitutions each finds its base again, and its
//! left matras, its reph and a formed pref glyph go to their places. (OpenType, development of
//! Indic scripts: "Final reordering".)

mod base;
mod glyphs;
mod left_matras;
mod matras;
mod moves;
mod pause;
mod placing;
mod pref;
mod reordering;
mod reph;
pub mod rules;
mod viramas;
mod word_start;

pub use pause::final_reordering;
