// Generated from crates/shapers_position/src/ot_shape_position/advances.rt by rust/erase; edit the source.

//! The advances of glyphs before any lookup.

use crate::support::prelude::*;

use super::metrics::{MetricsFont, is_horizontal};
use super::positions::{PositionChange, change_each_position};
use crate::generated::shapers_base::buffer::{Buffer, GlyphInfo, GlyphPosition, ShaperError};
use crate::generated::shapers_base::font::GlyphId;

/// Gives each glyph a position of its own: its advance in the font, no offset, and `var` 0; in
/// vertical text it is drawn by its origin for that. What positions there were are gone. A font has
/// no glyph of a number above 65535, nor of that one: every greater number is queried as that one.
/// (HarfBuzz's `hb_ot_position_default`.)
///
/// # Errors
///
/// [`Memory`]; nothing has changed then.
///
/// <details><summary>Contract</summary>
///
/// # Contract
///
/// ```text
/// ensures ok { let horizontal = is_horizontal buffer.old.direction in
///     let f = advanced (F.font font.now) (F.metrics font.now) horizontal in
///     OnOk result (buffer.new ≡ record buffer.old { positions = map f buffer.old.glyphs }) }
/// ensures refusal { IsOkUnless result Memory }
/// ensures err { OnErr result (buffer.new ≡ buffer.old) }
/// ```
///
/// - `is_horizontal`: `crates/shapers_choice/specs/Choice.antt`
/// - `advanced`: `crates/shapers_position/specs/Widths.antt`
///
/// </details>
///
/// [`Memory`]: crate::ShaperError::Memory
pub fn set_advances<F: MetricsFont>(font: &F, buffer: &mut Buffer) -> Result<(), ShaperError> {
    let is_horizontal = is_horizontal(buffer.direction());
    let room = buffer.take_position_list();
    let positions = advances(font, is_horizontal, buffer.glyphs(), room)?;
    // (one for each glyph, so the buffer takes them)
    let _ = buffer.set_positions(positions);
    Ok(())
}

// A position for each of these glyphs, in a list that is empty.
fn advances<F: MetricsFont>(
    font: &F,
    is_horizontal: bool,
    glyphs: &[GlyphInfo],
    mut positions: Vec<GlyphPosition>,
) -> Result<Vec<GlyphPosition>, ShaperError> {
    positions.resize(glyphs.len(), GlyphPosition::ZERO)?;
    let advancing = Advancing {
        font,
        is_horizontal,
    };
    change_each_position(&advancing, glyphs, positions.as_mut_slice());
    Ok(positions)
}

// Gives a glyph the position that it has by itself.
struct Advancing<'a, F: MetricsFont> {
    font: &'a F,
    is_horizontal: bool,
}

impl<'a, F: MetricsFont> PositionChange for Advancing<'a, F> {
    #[inline]
    fn change(&self, glyph: &GlyphInfo, position: &mut GlyphPosition) {
        *position = advanced(self.font, self.is_horizontal, glyph);
    }
}

// The position of a glyph that no lookup has moved.
#[inline]
fn advanced<F: MetricsFont>(font: &F, is_horizontal: bool, glyph: &GlyphInfo) -> GlyphPosition {
    let number = GlyphId(glyph.glyph_id.min(u32::from(u16::MAX)) as u16);
    if is_horizontal {
        level_position(font, number)
    } else {
        upright_position(font, number)
    }
}

#[inline]
fn level_position<F: MetricsFont>(font: &F, glyph: GlyphId) -> GlyphPosition {
    GlyphPosition {
        x_advance: font.glyph_h_advance(glyph),
        ..GlyphPosition::ZERO
    }
}

#[inline]
fn upright_position<F: MetricsFont>(font: &F, glyph: GlyphId) -> GlyphPosition {
    let (x, y) = font.glyph_v_origin(glyph);
    GlyphPosition {
        y_advance: font.glyph_v_advance(glyph),
        x_offset: 0_i32.saturating_sub(x),
        y_offset: 0_i32.saturating_sub(y),
        ..GlyphPosition::ZERO
    }
}
