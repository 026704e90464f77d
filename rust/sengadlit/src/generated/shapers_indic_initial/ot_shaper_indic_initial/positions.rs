// Generated from crates/shapers_indic_initial/src/ot_shaper_indic_initial/positions.rt by rust/erase; edit the source.

//! The positions of a syllable's glyphs, by which it is ordered. (OpenType, development of Indic
//! scripts: "Reorder characters".)

use super::base::Base;
use crate::generated::shapers_base::buffer::GlyphInfo;
use crate::generated::shapers_base::plan::ot_category_t::{
    OT_CM, OT_H, OT_MPst, OT_N, OT_RS, OT_SM, OT_ZWJ, OT_ZWNJ,
};
use crate::generated::shapers_base::plan::ot_position_t::{
    POS_BASE_C, POS_PRE_C, POS_PRE_M, POS_RA_TO_BECOME_REPH, POS_SMVD,
};
use crate::generated::shapers_indic::ot_shaper_indic::glyphs::is_matra;
use crate::generated::shapers_syllabic::ot_shaper_syllabic::is_consonant;

/// Sets the positions of the reph, of what stands before the base, and of the base.
#[inline]
pub(super) fn set_positions_by_base(glyphs: &mut [GlyphInfo], base: Base) {
    for (place, glyph) in glyphs.iter_mut().enumerate() {
        if place > base.place {
            return;
        }
        glyph.auxiliary = position_by_base(base, place, glyph.auxiliary);
    }
}

// The position of the glyph at `index`, where it has this one so far.
#[inline]
fn position_by_base(base: Base, index: usize, position: u8) -> u8 {
    if base.has_reph && index == 0 {
        POS_RA_TO_BECOME_REPH
    } else if index < base.place {
        position.min(POS_PRE_C)
    } else if index == base.place {
        POS_BASE_C
    } else {
        position
    }
}

/// Gives signs, joiners and halants the positions of what they go with.
///
/// An H stays behind where Uniscribe moves a left matra before it: 092B 093F 094D. Sinhala's
/// 0D9A 0DDA needs that, whose sign is in two parts, 0DD9, a left matra, and 0DCA, an H.
#[inline]
pub(super) fn attach_marks(glyphs: &mut [GlyphInfo]) {
    let mut carrier = 0;
    let mut behind = POS_PRE_M;
    for i in 0..glyphs.len() {
        let (position, next) = drawn_position(glyphs, i, carrier);
        let parted = glyphs[i].category == OT_H && position == POS_PRE_M;
        glyphs[i].auxiliary = if parted { behind } else { position };
        carrier = next;
        behind = next_behind(position, behind);
    }
}

// The position of the glyph at `index` behind a carrier of this position: that of its carrier, if
// it is attached, and that of the matra directly behind it, if it is a sign that goes with it. And
// the position of the nearest carrier before what follows the glyph.
#[inline]
fn drawn_position(glyphs: &[GlyphInfo], index: usize, carrier: u8) -> (u8, u8) {
    let glyph = &glyphs[index];
    if is_attached(glyph) {
        return (carrier, carrier);
    }
    let position = glyph.auxiliary;
    let carrier = if position == POS_SMVD {
        carrier
    } else {
        position
    };
    if index + 1 < glyphs.len() && draws_sign(glyph, &glyphs[index + 1]) {
        return (glyphs[index + 1].auxiliary, carrier);
    }
    (position, carrier)
}

// Whether a glyph goes with what stands before it.
#[inline]
fn is_attached(glyph: &GlyphInfo) -> bool {
    matches!(
        glyph.category,
        OT_ZWJ | OT_ZWNJ | OT_N | OT_RS | OT_CM | OT_H
    )
}

// Whether a glyph is a syllable modifier that goes with the one directly behind it: Gurmukhi's bindi
// may be typed before the vowel sign II that it stands on, as in 0A15 0A02 0A40.
#[inline]
fn draws_sign(glyph: &GlyphInfo, next: &GlyphInfo) -> bool {
    glyph.category == OT_SM && next.category == OT_MPst && next.auxiliary != POS_SMVD
}

// The position of the nearest glyph that doesn't go with a left matra before what follows a glyph
// of this position.
#[inline]
fn next_behind(position: u8, behind: u8) -> u8 {
    if position == POS_PRE_M {
        behind
    } else {
        position
    }
}

/// Gives what stands before a consonant, after the base at this place, the consonant's position: the
/// H that joins a below-base form to the base goes where that form goes (0915 094D 0930).
#[inline]
pub(super) fn own(glyphs: &mut [GlyphInfo], base: usize) {
    if base < glyphs.len() {
        own_each(&mut glyphs[base + 1..]);
    }
}

// Gives each glyph that a consonant owns that consonant's position.
#[inline]
fn own_each(glyphs: &mut [GlyphInfo]) {
    let mut owner = None;
    for i in (0..glyphs.len()).rev() {
        if bounds(&glyphs[i]) {
            owner = consonant_position(&glyphs[i]);
        } else {
            glyphs[i].auxiliary = owned_position(owner, glyphs[i].auxiliary);
        }
    }
}

// The position of a glyph if it is a consonant.
#[inline]
fn consonant_position(glyph: &GlyphInfo) -> Option<u8> {
    if is_consonant(glyph) {
        Some(glyph.auxiliary)
    } else {
        None
    }
}

// The position of what a consonant of this position owns, if one does, where it has `position` so
// far.
#[inline]
fn owned_position(owner: Option<u8>, position: u8) -> u8 {
    if position >= POS_SMVD {
        return position;
    }
    owner.unwrap_or(position)
}

// Whether a glyph bounds what a consonant owns: it is a consonant or a matra.
#[inline]
fn bounds(glyph: &GlyphInfo) -> bool {
    is_consonant(glyph) || is_matra(glyph)
}
