// Generated from crates/shapers_indic_initial/src/ot_shaper_indic_initial.rt by rust/erase; edit the source.

//! The initial reordering of Indic syllables: positions by the font, dotted circles, and then each
//! syllable by itself. (OpenType, development of Indic scripts: "Reorder characters".)

mod base;
mod cycles;
mod font_positions;
mod halant;
mod masks;
mod moved;
mod moving;
mod order;
mod ordered_base;
mod pause;
mod places;
mod positions;
mod preparing;
mod reordering;
mod reph;
mod rules;

pub use pause::initial_reordering;
