// Generated from crates/shapers_syllabic/src/ot_shaper_syllabic.rt by rust/erase; edit the source.

//! What the shapers of syllabic scripts share: syllables by spans, dotted circles, reordering,
//! clearing.

mod characters;
mod circles;
mod clearing;
mod consonants;
mod kinds;
mod moving;
mod pause;
mod reordering;
mod setup;

pub use characters::{
    compose, set_categories, set_categories_and_positions, set_categories_and_positions_in,
    set_categories_in,
};
pub use circles::{DottedCircles, ScriptCircles, insert_dotted_circles};
pub use clearing::{
    clear_substitution_flags, clear_substitution_flags_in, clear_syllables, clear_syllables_in,
};
pub use consonants::is_consonant;
pub use kinds::{indic_syllable, khmer_syllable, myanmar_syllable, use_syllable};
pub use moving::{move_before, place_among};
pub use pause::reorder_pause;
pub use reordering::{
    MayChange, Reorder, ReorderBySteps, reorder_syllables, reorder_syllables_by_steps,
};
pub use setup::{flag_syllables_in, setup_by_bytes, setup_syllables};
