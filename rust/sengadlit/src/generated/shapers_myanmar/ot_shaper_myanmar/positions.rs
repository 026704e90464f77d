// Generated from crates/shapers_myanmar/src/ot_shaper_myanmar/positions.rt by rust/erase; edit the source.

//! The positions of the glyphs of a syllable. (OpenType, Myanmar script development.)

use crate::generated::shapers_base::buffer::GlyphInfo;
use crate::generated::shapers_base::plan::ot_category_t::{
    OT_A, OT_As, OT_H, OT_MR, OT_Ra, OT_VBlw, OT_VPre, OT_VS,
};
use crate::generated::shapers_base::plan::ot_position_t::{
    POS_AFTER_MAIN, POS_AFTER_SUB, POS_BASE_C, POS_BEFORE_SUB, POS_BELOW_C, POS_PRE_C, POS_PRE_M,
};
use crate::generated::shapers_syllabic::ot_shaper_syllabic::is_consonant;

// Gives each glyph of a syllable its position. The reph is to stand after the main consonant.
#[inline]
pub(super) fn set_positions(syllable: &mut [GlyphInfo]) {
    let (reph, rest) = syllable.split_at_mut(reph_len(syllable));
    set_position(reph, POS_AFTER_MAIN);
    set_behind_reph(rest);
}

// How many glyphs the reph of a syllable has: Ra, As, H, or none. It is the kinzi, drawn above the
// base though text has it before: 1004 103A 1039 1000.
#[inline]
fn reph_len(syllable: &[GlyphInfo]) -> usize {
    if has_reph(syllable) { 3 } else { 0 }
}

// Whether a syllable begins with a reph.
#[inline]
fn has_reph(syllable: &[GlyphInfo]) -> bool {
    match syllable {
        [a, b, c, ..] => a.category == OT_Ra && b.category == OT_As && c.category == OT_H,
        _ => false,
    }
}

// Gives all these glyphs one position.
#[inline]
fn set_position(glyphs: &mut [GlyphInfo], position: u8) {
    for glyph in glyphs.iter_mut() {
        glyph.auxiliary = position;
    }
}

// The positions behind the reph: what stands before the base, the base, and what follows it.
#[inline]
fn set_behind_reph(glyphs: &mut [GlyphInfo]) {
    let (before, rest) = glyphs.split_at_mut(before_base(glyphs));
    set_position(before, POS_PRE_C);
    set_from_base(rest);
}

// How many glyphs stand before the base: the first consonant, or the first glyph.
#[inline]
fn before_base(glyphs: &[GlyphInfo]) -> usize {
    first_consonant(glyphs).unwrap_or(0)
}

// The place of the first consonant.
#[inline]
fn first_consonant(glyphs: &[GlyphInfo]) -> Option<usize> {
    glyphs.iter().position(may_be_base)
}

// Whether a glyph may be the base.
#[inline]
fn may_be_base(glyph: &GlyphInfo) -> bool {
    is_consonant(glyph)
}

// The positions of the base and of what follows it.
#[inline]
fn set_from_base(glyphs: &mut [GlyphInfo]) {
    if let Some((base, later)) = glyphs.split_first_mut() {
        base.auxiliary = POS_BASE_C;
        set_later(later);
    }
}

// The positions behind the base, each by the part in which the glyph stands.
#[inline]
fn set_later(glyphs: &mut [GlyphInfo]) {
    let mut part = POS_AFTER_MAIN;
    let mut before = POS_BASE_C;
    for glyph in glyphs.iter_mut() {
        part = position_behind_base(glyph, part);
        before = own_position(glyph, part, before);
        glyph.auxiliary = before;
    }
}

// The part of a glyph behind the base, by its position, behind a glyph of part `before`. The first
// vowel below opens the sequence of vowels below and anusvaras, which what stands elsewhere by
// itself doesn't end.
#[inline]
fn position_behind_base(glyph: &GlyphInfo, before: u8) -> u8 {
    match (before, glyph.category) {
        (POS_AFTER_MAIN, OT_VBlw) => POS_BELOW_C,
        (POS_BELOW_C, OT_VBlw | OT_A | OT_MR | OT_VPre | OT_VS) => POS_BELOW_C,
        (POS_BELOW_C, _) => POS_AFTER_SUB,
        _ => before,
    }
}

// The position of a glyph behind the base: the medial Ra and the vowels before the base stand in
// front of it (1000 103C 1031 is drawn as 1031 103C 1000), a selector with the glyph before it, an
// anusvara before the vowels below, and others in their part.
#[inline]
fn own_position(glyph: &GlyphInfo, part: u8, before: u8) -> u8 {
    match glyph.category {
        OT_MR => POS_PRE_C,
        OT_VPre => POS_PRE_M,
        OT_VS => before,
        OT_A if part == POS_BELOW_C => POS_BEFORE_SUB,
        _ => part,
    }
}
