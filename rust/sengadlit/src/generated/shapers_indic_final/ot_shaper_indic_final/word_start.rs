// Generated from crates/shapers_indic_final/src/ot_shaper_indic_final/word_start.rt by rust/erase; edit the source.

//! The opening of syllables: a left matra gets the mask of `init` at the start of a word, and inside
//! a word a break before it is unsafe: Bengali's 09C7 has a form of its own at the start, in which a
//! piece of text that begins there would be drawn.

use super::matras::is_left;
use crate::generated::shapers_base::buffer::{Buffer, GeneralCategory, GlyphInfo};

// Opens each syllable of the text.
#[inline]
pub(super) fn start_words(init: u32, buffer: &mut Buffer) {
    for place in 0..buffer.len() {
        if starts_syllable(buffer.glyphs(), place) {
            start_syllable(init, buffer, place);
        }
    }
}

// Whether a syllable starts at `place`.
#[inline]
fn starts_syllable(glyphs: &[GlyphInfo], place: usize) -> bool {
    place == 0 || glyphs[place].syllable != glyphs[place - 1].syllable
}

// Opens the syllable at `place`.
#[inline]
fn start_syllable(init: u32, buffer: &mut Buffer, place: usize) {
    if !is_left(&buffer.glyphs()[place]) {
        return;
    }
    if word_continues(buffer.glyphs(), place) {
        buffer.unsafe_to_break(place.saturating_sub(1), place + 1);
        return;
    }
    buffer.change_each_by(place, place + 1, |glyph| glyph.mask |= init);
}

// Whether a word goes on behind what stands before a place.
#[inline]
fn word_continues(glyphs: &[GlyphInfo], place: usize) -> bool {
    if place == 0 {
        return false;
    }
    continues_word(glyphs[place - 1].unicode_props.general_category())
}

// Whether a word goes on behind a glyph of this category.
#[inline]
fn continues_word(category: GeneralCategory) -> bool {
    matches!(
        category,
        GeneralCategory::Cf
            | GeneralCategory::Cn
            | GeneralCategory::Co
            | GeneralCategory::Cs
            | GeneralCategory::Ll
            | GeneralCategory::Lm
            | GeneralCategory::Lo
            | GeneralCategory::Lt
            | GeneralCategory::Lu
            | GeneralCategory::Mc
            | GeneralCategory::Me
            | GeneralCategory::Mn
    )
}
