// Generated from crates/shapers_position/src/ot_shape_position/metrics.rt by rust/erase; edit the source.

//! What positions read of a font.

use crate::generated::shapers_base::buffer::Direction;
use crate::generated::shapers_base::font::{Font, GlyphId};

/// A font with the metrics that positions are made of. For horizontal text alone, vertical ones may
/// be anything.
pub trait MetricsFont: Font {
    /// How many font units an em has (`unitsPerEm` of `head`).
    ///
    /// <details><summary>Contract</summary>
    ///
    /// # Contract
    ///
    /// ```text
    /// ensures { result ≡ (metrics self.now).em }
    /// ```
    ///
    /// </details>
    fn units_per_em(&self) -> u16;

    /// How far a glyph moves the pen in vertical text, in font units: below 0, as the pen moves down.
    ///
    /// <details><summary>Contract</summary>
    ///
    /// # Contract
    ///
    /// ```text
    /// ensures { result ≡ (metrics self.now).v_advance glyph }
    /// ```
    ///
    /// </details>
    fn glyph_v_advance(&self, glyph: GlyphId) -> i32;

    /// Where the origin of a glyph for vertical text lies, seen from that for horizontal text: to the
    /// right, and upwards.
    ///
    /// <details><summary>Contract</summary>
    ///
    /// # Contract
    ///
    /// ```text
    /// ensures { result ≡ (metrics self.now).v_origin glyph }
    /// ```
    ///
    /// </details>
    fn glyph_v_origin(&self, glyph: GlyphId) -> (i32, i32);
}

#[inline]
pub(super) fn is_horizontal(direction: Direction) -> bool {
    matches!(direction, Direction::LeftToRight | Direction::RightToLeft)
}

// The advance of a glyph along a line.
#[inline]
pub(super) fn line_advance<F: MetricsFont>(font: &F, is_horizontal: bool, glyph: GlyphId) -> i32 {
    if is_horizontal {
        font.glyph_h_advance(glyph)
    } else {
        font.glyph_v_advance(glyph)
    }
}

// An advance of so many units along a line.
#[inline]
pub(super) fn along_line(is_horizontal: bool, units: u32) -> i32 {
    let units = units as i32;
    if is_horizontal { units } else { -units }
}
