// Generated from crates/shapers_indic_final/src/ot_shaper_indic_final/reordering.rt by rust/erase; edit the source.

//! The final reordering of one syllable.

use super::base::search_base;
use super::glyphs::has_mask;
use super::placing::{place_matras, place_pref, place_reph};
use super::rules::{Rules, is_malayalam};
use super::viramas::{is_lost_virama, recover_viramas};
use crate::generated::shapers_base::buffer::{Buffer, GlyphInfo, Script, ShaperError};
use crate::generated::shapers_base::plan::ot_position_t::{
    POS_BELOW_C, POS_PRE_M, POS_RA_TO_BECOME_REPH,
};
use crate::generated::shapers_syllabic::ot_shaper_syllabic::{MayChange, Reorder, ReorderBySteps};

/// The final reordering of syllables, under rules, in a text of a script.
#[derive(Clone, Copy)]
pub(super) struct FinalOrder<'a> {
    pub(super) rules: &'a Rules,
    pub(super) script: Option<Script>,
}

impl<'a> MayChange for FinalOrder<'a> {
    #[inline]
    fn may_change(&self, glyph: &GlyphInfo) -> bool {
        changes_syllable(self.rules, self.script, glyph)
    }
}

impl<'a> Reorder for FinalOrder<'a> {
    // its viramas, its base, its left matras, its reph, and a glyph that `pref` formed
    #[inline]
    fn reorder(&self, buffer: &mut Buffer, start: usize, end: usize) -> Result<(), ShaperError> {
        recover_viramas(self.rules.virama, buffer, start, end);
        let based = search_base(self.rules, self.script, buffer, start, end);
        let (tries, pref) = (based.tries_pref, self.rules.pref);
        let forming = if tries { pref } else { 0 };
        let mut moves = place_matras(self.script, based.base, forming, buffer, start, end);
        let reph_pos = self.rules.reph_pos;
        let base = place_reph(reph_pos, based.base, &mut moves, buffer, start, end);
        place_pref(
            tries,
            self.script,
            pref,
            base,
            &mut moves,
            buffer,
            start,
            end,
        );
        buffer.apply_all(start, end, &moves);
        Ok(())
    }
}

impl<'a> ReorderBySteps for FinalOrder<'a> {}

// Whether a glyph may change its syllable: a left matra, a reph, what `pref` may form, a virama to
// be recovered; in Malayalam what stands below the base, too.
#[inline]
fn changes_syllable(rules: &Rules, script: Option<Script>, glyph: &GlyphInfo) -> bool {
    matches!(glyph.auxiliary, POS_PRE_M | POS_RA_TO_BECOME_REPH)
        || has_mask(rules.pref, glyph)
        || is_lost_virama(rules.virama, glyph)
        || (glyph.auxiliary == POS_BELOW_C && is_malayalam(script))
}
