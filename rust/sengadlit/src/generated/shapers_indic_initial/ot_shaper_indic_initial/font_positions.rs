// Generated from crates/shapers_indic_initial/src/ot_shaper_indic_initial/font_positions.rt by rust/erase; edit the source.

//! Positions by the font: consonants that it has below-base or post-base forms of.

use super::rules::Rules;
use crate::generated::shapers_base::buffer::{Buffer, GlyphInfo, GlyphWalk};
use crate::generated::shapers_base::font::{Font, GlyphId};
use crate::generated::shapers_base::map::Map;
use crate::generated::shapers_base::plan::ot_position_t::{POS_BASE_C, POS_BELOW_C, POS_POST_C};
use crate::generated::shapers_base::plan::{IndicPlan, IndicWouldSubstituteFeature, Position};
use crate::generated::shapers_indic::ot_shaper_indic::glyphs::number;
use crate::generated::shapers_indic::ot_shaper_indic::virama_glyph;

/// Gives consonants of position `BASE_C` for which the font has a below-base or a post-base form, by
/// its glyph for the script's virama, that form's position. It takes no memory.
#[inline]
pub(super) fn update_consonant_positions<F: Font>(rules: &Rules<F>, buffer: &mut Buffer) {
    if !has_forms(rules.plan, rules.map) {
        return;
    }
    if let Some(virama) = virama_glyph(rules.plan, rules.font) {
        buffer.walk(&mut ByVirama { rules, virama });
    }
}

// Whether a feature that gives consonants forms with the virama has lookups. Where none has, the
// font isn't asked about any consonant.
#[inline]
fn has_forms(plan: &IndicPlan, map: &Map) -> bool {
    !plan.blwf.lookups(map).is_empty()
        || !plan.vatu.lookups(map).is_empty()
        || !plan.pstf.lookups(map).is_empty()
        || !plan.pref.lookups(map).is_empty()
}

// How many consonants are known at once.
const KNOWN: usize = 32;

// A consonant and its position by the font, kept so that the font isn't queried again.
#[derive(Clone, Copy)]
struct Known {
    consonant: GlyphId,
    position: Position,
}

// Positions by the forms that consonants have with a virama.
struct ByVirama<'a, F: Font> {
    rules: &'a Rules<'a, F>,
    virama: GlyphId,
}

impl<'a, F: Font> ByVirama<'a, F> {
    // The position of a consonant. Below-base forms of Ra may be in `vatu` alone (HarfBuzz's issue
    // 1587).
    #[inline]
    fn consonant_position_from_face(&self, consonant: GlyphId) -> Position {
        let plan = self.rules.plan;
        if self.joins(&plan.blwf, consonant) || self.joins(&plan.vatu, consonant) {
            return POS_BELOW_C;
        }
        if self.joins(&plan.pstf, consonant) || self.joins(&plan.pref, consonant) {
            return POS_POST_C;
        }
        POS_BASE_C
    }

    // A consonant with its position.
    #[inline]
    fn asked(&self, consonant: GlyphId) -> Known {
        Known {
            consonant,
            position: self.consonant_position_from_face(consonant),
        }
    }

    // The position of a consonant, for which the font is queried only where it isn't known.
    #[inline]
    fn position_of(&self, known: &mut [Known; KNOWN], consonant: GlyphId) -> Position {
        let slot = usize::from(consonant.0) % KNOWN;
        let kept = known[slot];
        if kept.consonant.0 == consonant.0 {
            return kept.position;
        }
        let asked = self.asked(consonant);
        known[slot] = asked;
        asked.position
    }

    // Gives a glyph its position, if it is a consonant of position BASE_C.
    #[inline]
    fn position_one(&self, known: &mut [Known; KNOWN], glyph: &mut GlyphInfo) {
        if glyph.auxiliary == POS_BASE_C {
            glyph.auxiliary = self.position_of(known, number(glyph));
        }
    }

    // Gives all consonants of position BASE_C their positions, where that of one is known.
    #[inline]
    fn position_each(&self, first: Known, glyphs: &mut [GlyphInfo]) {
        let mut known = [first; KNOWN];
        for glyph in glyphs.iter_mut() {
            self.position_one(&mut known, glyph);
        }
    }

    // Gives all consonants of position BASE_C their positions.
    #[inline]
    fn position_all(&self, glyphs: &mut [GlyphInfo]) {
        if let Some(first) = first_consonant(glyphs) {
            self.position_each(self.asked(number(&first)), glyphs);
        }
    }

    // Whether a feature would substitute the virama and a consonant, in either order. Lookups of the
    // older specification have the consonant first. Some fonts, FreeSans among them, have these for
    // the newer one, too, and Uniscribe goes by them: in 0924 094D 0930 the base is the first
    // consonant.
    #[inline(always)]
    fn joins(&self, feature: &IndicWouldSubstituteFeature, consonant: GlyphId) -> bool {
        let font = self.rules.font;
        let lookups = feature.lookups(self.rules.map);
        let zero_context = feature.zero_context();
        !lookups.is_empty()
            && (font.would_apply_any(lookups, &[self.virama, consonant], zero_context)
                || font.would_apply_any(lookups, &[consonant, self.virama], zero_context))
    }
}

impl<'a, F: Font> GlyphWalk for ByVirama<'a, F> {
    #[inline]
    fn walk(&mut self, glyphs: &mut [GlyphInfo]) {
        self.position_all(glyphs);
    }
}

// The first consonant of position BASE_C.
#[inline]
fn first_consonant(glyphs: &[GlyphInfo]) -> Option<GlyphInfo> {
    glyphs
        .iter()
        .copied()
        .find(|glyph| glyph.auxiliary == POS_BASE_C)
}
