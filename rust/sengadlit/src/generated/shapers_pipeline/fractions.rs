// Generated from crates/shapers_pipeline/src/fractions.rt by rust/erase; edit the source.

//! The features of fractions.

use crate::generated::shapers_base::buffer::{
    Buffer, BufferFlags, Direction, GeneralCategory, GlyphInfo, change_each_by_in,
    unsafe_to_break_in, unsafe_to_concat_in,
};
use crate::generated::shapers_plan::ot_shape_plan::DriverMasks;

// The character that parts a fraction.
const FRACTION_SLASH: u32 = 0x2044;

// The masks before the slash of a fraction, of the slash, and behind it, in the order of the text.
#[derive(Clone, Copy)]
pub(crate) struct SlashMasks {
    pub(crate) before: u32,
    pub(crate) slash: u32,
    pub(crate) behind: u32,
}

// Sets the features of the fractions of a text.
pub(crate) fn set_fractions(masks: &DriverMasks, buffer: &mut Buffer) {
    if !has_fractions(masks) {
        return;
    }
    if !has_slash(buffer.glyphs()) {
        return;
    }
    let masks = slash_masks(buffer.direction(), masks);
    let flags = buffer.flags();
    buffer.with_glyphs_mut(|glyphs| set_fractions_in(masks, flags, glyphs));
}

// Whether the font has features for fractions.
#[inline]
fn has_fractions(masks: &DriverMasks) -> bool {
    masks.frac != 0 || (masks.numr != 0 && masks.dnom != 0)
}

// Whether a fraction's slash is among these glyphs.
#[inline]
fn has_slash(glyphs: &[GlyphInfo]) -> bool {
    glyphs.iter().any(is_fraction_slash)
}

// Numerators stand first where the text goes forward.
#[inline]
fn slash_masks(direction: Direction, masks: &DriverMasks) -> SlashMasks {
    let numerators = masks.numr | masks.frac;
    let denominators = masks.frac | masks.dnom;
    let (before, behind) = if goes_forward(direction) {
        (numerators, denominators)
    } else {
        (denominators, numerators)
    };
    SlashMasks {
        before,
        slash: masks.frac,
        behind,
    }
}

#[inline]
pub(crate) fn goes_forward(direction: Direction) -> bool {
    matches!(direction, Direction::LeftToRight | Direction::TopToBottom)
}

// Sets the features of each fraction.
fn set_fractions_in(masks: SlashMasks, flags: BufferFlags, glyphs: &mut [GlyphInfo]) {
    for i in 0..glyphs.len() {
        set_fraction(masks, flags, i, glyphs);
    }
}

// Sets the features of the fraction whose slash stands at place `i`, if one does.
#[inline]
fn set_fraction(masks: SlashMasks, flags: BufferFlags, i: usize, glyphs: &mut [GlyphInfo]) {
    if !is_fraction_slash(&glyphs[i]) {
        return;
    }
    let before = decimals_before(i, glyphs);
    let behind = decimals_behind(i, glyphs);
    if before == 0 || behind == 0 {
        // a text that brings numbers to this side changes what is on the other one
        unsafe_to_concat_in(flags, glyphs, i, i + 1);
    } else {
        mark_fraction(masks, i, before, behind, glyphs);
    }
}

// How many decimal numbers stand right before place `i`.
#[inline]
fn decimals_before(i: usize, glyphs: &[GlyphInfo]) -> usize {
    glyphs[..i]
        .iter()
        .rev()
        .take_while(|glyph| is_decimal_glyph(glyph))
        .count()
}

// How many decimal numbers stand right behind place `i`.
#[inline]
fn decimals_behind(i: usize, glyphs: &[GlyphInfo]) -> usize {
    decimals_in_front(&glyphs[i + 1..])
}

// How many of the first glyphs are decimal numbers.
#[inline]
fn decimals_in_front(glyphs: &[GlyphInfo]) -> usize {
    glyphs
        .iter()
        .take_while(|glyph| is_decimal_glyph(glyph))
        .count()
}

#[inline]
fn is_fraction_slash(glyph: &GlyphInfo) -> bool {
    glyph.glyph_id == FRACTION_SLASH
}

#[inline]
fn is_decimal_glyph(glyph: &GlyphInfo) -> bool {
    matches!(glyph.unicode_props.general_category(), GeneralCategory::Nd)
}

// Gives the numbers of a fraction and its slash their features; nothing may be broken in it.
#[inline]
fn mark_fraction(
    masks: SlashMasks,
    i: usize,
    before: usize,
    behind: usize,
    glyphs: &mut [GlyphInfo],
) {
    let start = i - before;
    let end = i + 1 + behind;
    unsafe_to_break_in(glyphs, start, end);
    add_bits(masks.before, start, i, glyphs);
    add_bits(masks.slash, i, i + 1, glyphs);
    add_bits(masks.behind, i + 1, end, glyphs);
}

// Gives the glyphs from `start` to `end` mask bits besides their own.
#[inline]
fn add_bits(bits: u32, start: usize, end: usize, glyphs: &mut [GlyphInfo]) {
    change_each_by_in(&mut glyphs[start..end], |glyph| glyph.mask |= bits);
}
