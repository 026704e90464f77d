// Generated from crates/shapers_indic_initial/src/ot_shaper_indic_initial/masks.rt by rust/erase; edit the source.

//! The masks of a syllable in its new order. (OpenType, development of Indic scripts: which
//! features apply where.)

use super::places::is_of_category;
use super::rules::Rules;
use crate::generated::shapers_base::buffer::{GlyphInfo, Script};
use crate::generated::shapers_base::font::Font;
use crate::generated::shapers_base::plan::ot_category_t::{OT_H, OT_Ra, OT_ZWJ, OT_ZWNJ};
use crate::generated::shapers_base::plan::ot_position_t::POS_RA_TO_BECOME_REPH;
use crate::generated::shapers_base::plan::{BlwfMode, IndicPlan};
use crate::generated::shapers_indic::ot_shaper_indic::glyphs::number;
use crate::generated::shapers_indic::ot_shaper_indic::indic_feature::{
    ABVF, BLWF, HALF, PREF, PSTF, RPHF,
};
use crate::generated::shapers_syllabic::ot_shaper_syllabic::is_consonant;

const DEVANAGARI: Script = Script(*b"Deva");

/// Gives the glyphs of an ordered syllable with its base at this place the masks of the basic
/// features, which touch no glyph flag.
#[inline]
pub(super) fn set_masks<F: Font>(
    rules: &Rules<F>,
    script: Option<Script>,
    base: usize,
    glyphs: &mut [GlyphInfo],
) {
    let plan = rules.plan;
    set_reph_bits(bits_of(plan, RPHF), glyphs);
    set_bits_around(bits_before_base(plan), bits_after_base(plan), base, glyphs);
    set_eyelash_mask(plan, script, base, glyphs);
    set_pref_mask(rules, base, glyphs);
    clear_half(bits_of(plan, HALF), glyphs);
}

// The bits that a feature gives: its mask, but for the glyph flags.
#[inline]
fn bits_of(plan: &IndicPlan, feature: usize) -> u32 {
    plan.mask_array[feature] & !7
}

// Gives all these glyphs mask bits.
#[inline]
fn add_bits(bits: u32, glyphs: &mut [GlyphInfo]) {
    for glyph in glyphs.iter_mut() {
        glyph.mask |= bits;
    }
}

// Gives the glyphs of a reph that begins the syllable mask bits.
#[inline]
fn set_reph_bits(bits: u32, glyphs: &mut [GlyphInfo]) {
    let len = leading_reph_len(glyphs);
    add_bits(bits, &mut glyphs[..len]);
}

// How many glyphs of the reph's position stand in front.
#[inline]
fn leading_reph_len(glyphs: &[GlyphInfo]) -> usize {
    glyphs
        .iter()
        .take_while(|glyph| glyph.auxiliary == POS_RA_TO_BECOME_REPH)
        .count()
}

// Gives the glyphs before the base some mask bits, and those after it others.
#[inline]
fn set_bits_around(before: u32, after: u32, base: usize, glyphs: &mut [GlyphInfo]) {
    add_bits(before, &mut glyphs[..base]);
    if base < glyphs.len() {
        add_bits(after, &mut glyphs[base + 1..]);
    }
}

// The bits before the base.
#[inline]
fn bits_before_base(plan: &IndicPlan) -> u32 {
    let half = bits_of(plan, HALF);
    if !plan.is_old_spec && applies_before_base(plan.config.blwf_mode) {
        half | bits_of(plan, BLWF)
    } else {
        half
    }
}

// Whether below-base forms stand before the base, too.
#[inline]
fn applies_before_base(mode: BlwfMode) -> bool {
    match mode {
        BlwfMode::PreAndPost => true,
        BlwfMode::PostOnly => false,
    }
}

// The bits after the base.
#[inline]
fn bits_after_base(plan: &IndicPlan) -> u32 {
    bits_of(plan, BLWF) | bits_of(plan, ABVF) | bits_of(plan, PSTF)
}

// Gives each Ra and H of an eyelash Ra the mask of below-base forms, where they have one. The older
// specification has `blwf` for Ra below half forms, too, so before the base: in
// 0924 094D 0930 094D 0915. A ZWJ behind its H requests the eyelash form in place of that one:
// 0924 094D 0930 094D 200D 0915.
#[inline]
fn set_eyelash_mask(
    plan: &IndicPlan,
    script: Option<Script>,
    base: usize,
    glyphs: &mut [GlyphInfo],
) {
    if has_eyelash(plan, script) {
        set_eyelash_bits(bits_of(plan, BLWF), base, glyphs);
    }
}

// Whether Ra and H before the base get the mask of below-base forms: in the older specification of
// Devanagari.
#[inline]
fn has_eyelash(plan: &IndicPlan, script: Option<Script>) -> bool {
    plan.is_old_spec && script == Some(DEVANAGARI)
}

// Gives each Ra and H of an eyelash Ra mask bits.
#[inline]
fn set_eyelash_bits(bits: u32, base: usize, glyphs: &mut [GlyphInfo]) {
    for i in 0..glyphs.len() {
        if is_in_eyelash(base, glyphs, i) {
            glyphs[i].mask |= bits;
        }
    }
}

// Whether the glyph at `index` belongs to an eyelash Ra.
#[inline]
fn is_in_eyelash(base: usize, glyphs: &[GlyphInfo], index: usize) -> bool {
    begins_eyelash(base, glyphs, index) || (0 < index && begins_eyelash(base, glyphs, index - 1))
}

// Whether an eyelash Ra stands at `index`: Ra and H before the base, and no ZWJ behind them before
// it.
#[inline]
fn begins_eyelash(base: usize, glyphs: &[GlyphInfo], index: usize) -> bool {
    index + 1 < base
        && is_of_category(glyphs, index, OT_Ra)
        && is_of_category(glyphs, index + 1, OT_H)
        && !(index + 2 < base && is_of_category(glyphs, index + 2, OT_ZWJ))
}

// Gives the first two neighbours after the base that pref would substitute its mask: the H and Ra of
// Malayalam's 0D15 0D4D 0D30, which the final reordering puts before the base.
#[inline]
fn set_pref_mask<F: Font>(rules: &Rules<F>, base: usize, glyphs: &mut [GlyphInfo]) {
    if let Some(pair) = pref_pair(rules, base, glyphs) {
        add_bits(bits_of(rules.plan, PREF), &mut glyphs[pair..pair + 2]);
    }
}

// The place of the first two neighbours after the base that pref would substitute.
#[inline]
fn pref_pair<F: Font>(rules: &Rules<F>, base: usize, glyphs: &[GlyphInfo]) -> Option<usize> {
    let plan = rules.plan;
    if plan.mask_array[PREF] == 0 || base + 2 >= glyphs.len() {
        return None;
    }
    for i in base + 1..glyphs.len() - 1 {
        let pair = [number(&glyphs[i]), number(&glyphs[i + 1])];
        if plan.pref.would_substitute(rules.map, rules.font, &pair) {
            return Some(i);
        }
    }
    None
}

// A ZWNJ takes mask bits from the glyphs before it back to the nearest consonant, that one
// included: 0915 094D 200C 0937 shows its H and has no half form. Most syllables have none.
#[inline]
fn clear_half(bits: u32, glyphs: &mut [GlyphInfo]) {
    if has_non_joiner(glyphs) {
        clear_half_each(bits, glyphs);
    }
}

// Whether there is a ZWNJ.
#[inline]
fn has_non_joiner(glyphs: &[GlyphInfo]) -> bool {
    glyphs.iter().any(is_non_joiner)
}

// Takes the bits of half forms from the glyphs before each ZWNJ, from the last glyph on.
#[inline]
fn clear_half_each(bits: u32, glyphs: &mut [GlyphInfo]) {
    let mut loses = false;
    for i in (0..glyphs.len()).rev() {
        let glyph = &mut glyphs[i];
        if loses {
            glyph.mask &= !bits;
        }
        loses = keeps_losing(glyph, loses);
    }
}

// Whether the glyph before this one loses half, where this one does so or doesn't.
#[inline]
fn keeps_losing(glyph: &GlyphInfo, loses: bool) -> bool {
    if loses {
        return !is_consonant(glyph);
    }
    is_non_joiner(glyph)
}

// Whether a glyph is a ZWNJ, and no lookup put it in for several.
#[inline]
fn is_non_joiner(glyph: &GlyphInfo) -> bool {
    glyph.category == OT_ZWNJ && !glyph.glyph_props.is_ligated()
}
