// Generated from crates/shapers_prepare/src/ot_shape_prepare/rotation.rt by rust/erase; edit the source.

//! Characters for another direction.

use super::unicode::UnicodeProperties;
use crate::generated::shapers_base::buffer::{Buffer, Direction, GlyphChange, GlyphInfo};
use crate::generated::shapers_base::font::Font;

/// What characters are rotated by: the direction that the caller wants of the text, and of the plan
/// the mask of the feature that mirrors (`rtlm`) and whether the font has a feature for vertical
/// forms (`vert`).
#[derive(Clone, Copy, Debug, PartialEq, Eq, Hash)]
pub struct CharRotation {
    /// The direction that the caller wants.
    pub direction: Direction,
    /// The mask of `rtlm`.
    pub rtlm_mask: u32,
    /// Whether the font has `vert`.
    pub has_vert: bool,
}

/// In text that goes backward each character becomes its mirrored one where the font has that, and
/// else gets the mask of `rtlm`; in vertical text without `vert` its vertical form where the font
/// has that. The properties of the characters stay. (Unicode's Bidi_Mirroring_Glyph and vertical
/// compatibility mappings.)
///
/// <details><summary>Contract</summary>
///
/// # Contract
///
/// ```text
/// ensures { let p = U.properties unicode.now in
///     let text = map (rotated_glyph p (F.font font.now) rotation.now) buffer.old.glyphs in
///     buffer.new ≡ record buffer.old { glyphs = text } }
/// ```
///
/// - `rotated_glyph`: `crates/shapers_prepare/specs/Rotation.antt`
///
/// </details>
pub fn rotate_chars<U: UnicodeProperties, F: Font>(
    unicode: &U,
    font: &F,
    rotation: &CharRotation,
    buffer: &mut Buffer,
) {
    if !rotates(*rotation) {
        return;
    }
    rotate_each(unicode, font, *rotation, buffer);
}

// Rotates each character, in a text that goes in such a direction.
fn rotate_each<U: UnicodeProperties, F: Font>(
    unicode: &U,
    font: &F,
    rotation: CharRotation,
    buffer: &mut Buffer,
) {
    // (a font that panics leaves the empty buffer, and no text with some characters rotated)
    match rotation.direction {
        // (so that the direction isn't asked for at each character)
        Direction::RightToLeft => {
            let rtlm_mask = rotation.rtlm_mask;
            buffer.change_outside(&Mirroring {
                unicode,
                font,
                rtlm_mask,
            });
        }
        _ => buffer.change_outside(&Rotating {
            unicode,
            font,
            rotation,
        }),
    }
}

// Whether a text goes in a direction for which characters are rotated.
#[inline]
fn rotates(rotation: CharRotation) -> bool {
    goes_backward(rotation.direction) || (goes_vertically(rotation.direction) && !rotation.has_vert)
}

// The change of one glyph in text from right to left.
struct Mirroring<'a, U: UnicodeProperties, F: Font> {
    unicode: &'a U,
    font: &'a F,
    rtlm_mask: u32,
}

impl<'a, U: UnicodeProperties, F: Font> GlyphChange for Mirroring<'a, U, F> {
    #[inline]
    fn change(&self, glyph: &mut GlyphInfo) {
        mirror(self.unicode, self.font, self.rtlm_mask, glyph);
    }
}

// The change of one glyph, whatever the direction.
struct Rotating<'a, U: UnicodeProperties, F: Font> {
    unicode: &'a U,
    font: &'a F,
    rotation: CharRotation,
}

impl<'a, U: UnicodeProperties, F: Font> GlyphChange for Rotating<'a, U, F> {
    #[inline]
    fn change(&self, glyph: &mut GlyphInfo) {
        if goes_backward(self.rotation.direction) {
            mirror(self.unicode, self.font, self.rotation.rtlm_mask, glyph);
        }
        if goes_vertically(self.rotation.direction) && !self.rotation.has_vert {
            stand_upright(self.unicode, self.font, glyph);
        }
    }
}

// The mirrored character where the font has it, else the feature that mirrors.
#[inline]
fn mirror<U: UnicodeProperties, F: Font>(
    unicode: &U,
    font: &F,
    rtlm_mask: u32,
    glyph: &mut GlyphInfo,
) {
    match which_font_has(font, unicode.mirrored(glyph.glyph_id)) {
        Some(c) => glyph.glyph_id = c,
        None => glyph.mask |= rtlm_mask,
    }
}

// The vertical form where the font has it.
#[inline]
fn stand_upright<U: UnicodeProperties, F: Font>(unicode: &U, font: &F, glyph: &mut GlyphInfo) {
    if let Some(c) = which_font_has(font, unicode.vertical_form(glyph.glyph_id)) {
        glyph.glyph_id = c;
    }
}

// A character that the font has, if there is one.
#[inline]
fn which_font_has<F: Font>(font: &F, c: Option<u32>) -> Option<u32> {
    match c {
        Some(c) if font.has_glyph(c) => Some(c),
        _ => None,
    }
}

#[inline]
fn goes_backward(direction: Direction) -> bool {
    matches!(direction, Direction::RightToLeft | Direction::BottomToTop)
}

#[inline]
fn goes_vertically(direction: Direction) -> bool {
    matches!(direction, Direction::TopToBottom | Direction::BottomToTop)
}
