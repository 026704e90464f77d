//! The features of fractions, which the pipeline sets behind normalization.

use sengadlit::ot_shape_plan::DriverMasks;
use sengadlit::{Buffer, Direction, GeneralCategory, GlyphInfo};
use std::ops::Range;

const FRACTION_SLASH: u32 = 0x2044;

/// Gives the decimal numbers on both sides of each fraction slash the features of numerators and of
/// denominators, in the order of the direction. The font has all features of fractions.
pub(super) fn set_fractions(masks: DriverMasks, buffer: &mut Buffer) {
    let (numerators, denominators) = (masks.numr | masks.frac, masks.dnom | masks.frac);
    let (before, behind) = match buffer.direction() {
        Direction::LeftToRight | Direction::TopToBottom => (numerators, denominators),
        Direction::RightToLeft | Direction::BottomToTop | Direction::Invalid => {
            (denominators, numerators)
        }
    };
    for slash in slashes(buffer.glyphs()) {
        let (start, end) = ends_of_fraction(slash, buffer.glyphs());
        if start == slash || end == slash + 1 {
            buffer.unsafe_to_concat(slash, slash + 1);
        } else {
            buffer.unsafe_to_break(start, end);
            add_bits(before, start..slash, buffer);
            add_bits(masks.frac, slash..slash + 1, buffer);
            add_bits(behind, slash + 1..end, buffer);
        }
    }
}

fn slashes(glyphs: &[GlyphInfo]) -> Vec<usize> {
    let places = glyphs.iter().enumerate();
    places
        .filter(|(_, glyph)| glyph.glyph_id == FRACTION_SLASH)
        .map(|(place, _)| place)
        .collect()
}

// Where the decimal numbers right before a slash begin, and where those right behind it end.
fn ends_of_fraction(slash: usize, glyphs: &[GlyphInfo]) -> (usize, usize) {
    let is_decimal =
        |glyph: &&GlyphInfo| glyph.unicode_props.general_category() == GeneralCategory::Nd;
    let (before, behind) = (&glyphs[..slash], &glyphs[slash + 1..]);
    let start = slash - before.iter().rev().take_while(is_decimal).count();
    let end = slash + 1 + behind.iter().take_while(is_decimal).count();
    (start, end)
}

fn add_bits(bits: u32, places: Range<usize>, buffer: &mut Buffer) {
    buffer.with_glyphs_mut(|glyphs| {
        for glyph in &mut glyphs[places] {
            glyph.mask |= bits;
        }
    });
}
