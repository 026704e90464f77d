// Generated from crates/shapers_stretch/src/ot_shaper_arabic_stretch.rt by rust/erase; edit the source.

//! Marks that stretch: their tiles are laid, and laid again, over the word before them. (OpenType
//! `stch`.)

mod counting;
mod measuring;
mod parts;
mod postprocessing;
mod recording;
mod tiles;
pub use postprocessing::postprocess_glyphs;
pub use recording::{record_stch, record_stch_in};
