// Generated from crates/shapers_indic_initial/src/ot_shaper_indic_initial/reordering.rt by rust/erase; edit the source.

//! The initial reordering of one syllable.

use super::masks::set_masks;
use super::order::order_syllable;
use super::preparing::prepare_for_order;
use super::rules::Rules;
use crate::generated::shapers_base::buffer::{Buffer, GlyphInfo, GlyphWalk, Script, ShaperError};
use crate::generated::shapers_base::font::Font;
use crate::generated::shapers_indic::ot_shaper_indic::glyphs::is_plain_consonant;
use crate::generated::shapers_syllabic::ot_shaper_syllabic::indic_syllable::{
    BROKEN_CLUSTER, CONSONANT_SYLLABLE, STANDALONE_CLUSTER, VOWEL_SYLLABLE,
};
use crate::generated::shapers_syllabic::ot_shaper_syllabic::{MayChange, Reorder, ReorderBySteps};

/// The initial reordering of a syllable that has positions by the font: its order, and its masks.
pub(super) struct InitialOrder<'a, F: Font> {
    pub(super) rules: &'a Rules<'a, F>,
}

impl<'a, F: Font> MayChange for InitialOrder<'a, F> {
    // each may: it gets a position and masks
    #[inline]
    fn may_change(&self, _: &GlyphInfo) -> bool {
        true
    }
}

impl<'a, F: Font> Reorder for InitialOrder<'a, F> {
    #[inline]
    fn reorder(&self, buffer: &mut Buffer, start: usize, end: usize) -> Result<(), ShaperError> {
        if is_plain_consonant(&buffer.glyphs()[start..end]) {
            return Ok(());
        }
        if is_reordered(&buffer.glyphs()[start..end]) {
            let moved = prepare_for_order(self.rules, buffer, start, end);
            let base = order_syllable(self.rules.plan.is_old_spec, &moved, buffer);
            self.mask_syllable(buffer, base, start, end);
        }
        Ok(())
    }
}

impl<'a, F: Font> ReorderBySteps for InitialOrder<'a, F> {}

impl<'a, F: Font> InitialOrder<'a, F> {
    // Gives the glyphs of an ordered syllable with its base at this place their masks.
    #[inline]
    fn mask_syllable(&self, buffer: &mut Buffer, base: usize, start: usize, end: usize) {
        let mut masks = Masks {
            rules: self.rules,
            script: buffer.script(),
            base,
            start,
            end,
        };
        buffer.walk(&mut masks);
    }
}

// Where a syllable stands whose glyphs get their masks.
struct Masks<'a, F: Font> {
    rules: &'a Rules<'a, F>,
    script: Option<Script>,
    base: usize,
    start: usize,
    end: usize,
}

impl<'a, F: Font> GlyphWalk for Masks<'a, F> {
    #[inline]
    fn walk(&mut self, glyphs: &mut [GlyphInfo]) {
        let syllable = &mut glyphs[self.start..self.end];
        set_masks(self.rules, self.script, self.base, syllable);
    }
}

// Whether a syllable is reordered.
#[inline]
fn is_reordered(syllable: &[GlyphInfo]) -> bool {
    match syllable {
        [] => false,
        [first, ..] => matches!(
            first.syllable % 16,
            CONSONANT_SYLLABLE | VOWEL_SYLLABLE | STANDALONE_CLUSTER | BROKEN_CLUSTER
        ),
    }
}
