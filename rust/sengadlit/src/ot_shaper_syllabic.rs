//! What the shapers of syllabic scripts share: dotted circles, and reordering syllable by syllable;
//! categories, clearing and flags on slices, for glyphs that are in no buffer.

pub use crate::generated::shapers_syllabic::ot_shaper_syllabic::{
    MayChange, Reorder, ReorderBySteps, clear_substitution_flags_in, clear_syllables_in,
    flag_syllables_in, indic_syllable, insert_dotted_circles, khmer_syllable, myanmar_syllable,
    reorder_syllables, reorder_syllables_by_steps, set_categories_and_positions_in,
    set_categories_in, setup_by_bytes, use_syllable,
};
