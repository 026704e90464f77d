// Generated from crates/shapers_position/src/ot_shape_position/spaces.rt by rust/erase; edit the source.

//! The widths of spaces that the font lacks.

use super::metrics::{MetricsFont, along_line, is_horizontal, line_advance};
use super::positions::{PositionChange, change_positions};
use crate::generated::shapers_base::buffer::{Buffer, GeneralCategory, GlyphInfo, GlyphPosition};

// The kinds of spaces that are no part of an em, by HarfBuzz's numbers.
const SPACE_4_EM_18: u8 = 17;

const SPACE_FIGURE: u8 = 19;

const SPACE_PUNCTUATION: u8 = 20;

const SPACE_NARROW: u8 = 21;

// What a figure space is as wide as, in the order in which it is looked for.
const DIGITS: [u32; 10] = [0x30, 0x31, 0x32, 0x33, 0x34, 0x35, 0x36, 0x37, 0x38, 0x39];

// What a punctuation space is as wide as: a full stop, else a comma.
const STOPS: [u32; 2] = [0x2E, 0x2C];

/// Gives each space that is drawn by another one's glyph the width that it stands for: a part of
/// the em, a digit's, a full stop's or half of its glyph's. In vertical text that is its height.
/// Normalization leaves the kind of such a space in the high byte of its glyph's `unicode_props`; a
/// space of the font's own has none, and keeps its advance. It comes behind `set_advances`; a buffer
/// without positions keeps none. (HarfBuzz's `_hb_ot_shape_fallback_spaces`.)
///
/// <details><summary>Contract</summary>
///
/// # Contract
///
/// ```text
/// ensures { let horizontal = is_horizontal buffer.old.direction in
///     let f = space_placed (F.font font.now) (F.metrics font.now) horizontal in
///     let placed = positions_changed f buffer.old.glyphs buffer.old.positions in
///     buffer.new ≡ record buffer.old { positions = placed } }
/// ```
///
/// - `is_horizontal`: `crates/shapers_choice/specs/Choice.antt`
/// - `space_placed`: `crates/shapers_position/specs/Spaces.antt`
/// - `positions_changed`: `crates/shapers_position/specs/Widths.antt`
///
/// </details>
pub fn set_space_widths<F: MetricsFont>(font: &F, buffer: &mut Buffer) {
    if !has_space(buffer.glyphs()) {
        return;
    }
    let is_horizontal = is_horizontal(buffer.direction());
    let widths = SpaceWidths {
        font,
        is_horizontal,
    };
    change_positions(&widths, buffer);
}

// Gives a space its width.
struct SpaceWidths<'a, F: MetricsFont> {
    font: &'a F,
    is_horizontal: bool,
}

impl<'a, F: MetricsFont> PositionChange for SpaceWidths<'a, F> {
    #[inline]
    fn change(&self, glyph: &GlyphInfo, position: &mut GlyphPosition) {
        if !is_space_glyph(glyph) {
            return;
        }
        let kind = glyph.unicode_props.high_byte();
        if self.is_horizontal {
            position.x_advance = space_width(self.font, true, kind, position.x_advance);
        } else {
            position.y_advance = space_width(self.font, false, kind, position.y_advance);
        }
    }
}

// Whether one of these glyphs is such a space.
#[inline]
fn has_space(glyphs: &[GlyphInfo]) -> bool {
    glyphs.iter().any(is_space_glyph)
}

// Whether a glyph is a space, and no lookup put it in for several.
#[inline]
fn is_space_glyph(glyph: &GlyphInfo) -> bool {
    is_space_separator(glyph.unicode_props.general_category()) && !glyph.glyph_props.is_ligated()
}

#[inline]
fn is_space_separator(category: GeneralCategory) -> bool {
    matches!(category, GeneralCategory::Zs)
}

// The width of a space of a kind, whose glyph has this advance along the line.
fn space_width<F: MetricsFont>(font: &F, is_horizontal: bool, kind: u8, advance: i32) -> i32 {
    match kind {
        1..=6 | 16 => along_line(is_horizontal, part_of_em(font.units_per_em(), kind)),
        SPACE_4_EM_18 => along_line(is_horizontal, four_eighteenths(font.units_per_em())),
        SPACE_FIGURE => first_advance(font, is_horizontal, &DIGITS, advance),
        SPACE_PUNCTUATION => first_advance(font, is_horizontal, &STOPS, advance),
        SPACE_NARROW => advance / 2,
        _ => advance,
    }
}

// A part of an em, to the nearest unit.
#[inline]
fn part_of_em(em: u16, parts: u8) -> u32 {
    (u32::from(em) + u32::from(parts / 2)) / u32::from(parts)
}

#[inline]
fn four_eighteenths(em: u16) -> u32 {
    u32::from(em) * 4 / 18
}

// The advance, along the line, of the first of these characters that the font has, or else this
// one.
fn first_advance<F: MetricsFont>(
    font: &F,
    is_horizontal: bool,
    characters: &[u32],
    else_advance: i32,
) -> i32 {
    for c in characters {
        if let Some(glyph) = font.nominal_glyph(*c) {
            return line_advance(font, is_horizontal, glyph);
        }
    }
    else_advance
}
