//! Positions in other units than the font's (HarfBuzz's `hb_font_set_scale`).

use super::GlyphExtents;
use crate::buffer::{Buffer, Direction, GlyphPosition};
use crate::font::{Font, GlyphId};
use crate::generated::opentype_font::font::OpenTypeFont;
use crate::ot_shape_position::MetricsFont;

/// How many units an em has across and up, and how many it has in the font.
#[derive(Clone, Copy, Debug)]
pub(super) struct Scale {
    pub x: i32,
    pub y: i32,
    pub units_per_em: u16,
}

impl Scale {
    /// Scales a length across.
    pub fn across(self, units: i32) -> i32 {
        scaled(units, self.x, self.units_per_em)
    }

    /// Scales a height.
    pub fn up(self, units: i32) -> i32 {
        scaled(units, self.y, self.units_per_em)
    }

    /// Scales the positions of a text whose attachments aren't carried out yet.
    pub fn apply(self, font: &OpenTypeFont<'_>, buffer: &mut Buffer) {
        let is_vertical = matches!(
            buffer.direction(),
            Direction::TopToBottom | Direction::BottomToTop
        );
        for place in 0..buffer.positions_len() {
            let glyph = buffer.get(place).glyph_id;
            let glyph = GlyphId(u16::try_from(glyph).unwrap_or(u16::MAX));
            let own = self.metrics(font, glyph, is_vertical);
            let position = self.position(&own, buffer.position(place));
            buffer.set_position(place, position);
        }
    }

    /// What a glyph has by itself.
    fn metrics(self, font: &OpenTypeFont<'_>, glyph: GlyphId, is_vertical: bool) -> Metrics {
        let across = font.glyph_h_advance(glyph);
        if !is_vertical {
            return Metrics {
                advance: (across, 0),
                origin: (0, 0),
                scaled_origin: (0, 0),
            };
        }
        let origin = font.glyph_v_origin(glyph);
        Metrics {
            advance: (0, font.glyph_v_advance(glyph)),
            origin,
            scaled_origin: (self.across(across) / 2, self.up(origin.1)),
        }
    }

    /// Scales a position: the glyph's own advance and origin, what lookups added to them, and where a glyph
    /// is attached to another, the way between two anchors.
    fn position(self, own: &Metrics, at: GlyphPosition) -> GlyphPosition {
        let parts = |own: i32, all: i32| match all {
            0 => (0, 0),
            _ => (own, all.saturating_sub(own)),
        };
        let x = parts(own.advance.0, at.x_advance);
        let y = parts(own.advance.1, at.y_advance);
        let way_x = at.x_offset.saturating_add(own.origin.0);
        let way_y = at.y_offset.saturating_add(own.origin.1);
        let (way_x, way_y) = if at.var == 0 {
            (self.across(way_x), self.up(way_y))
        } else {
            (
                scaled_way(way_x, self.x, self.units_per_em),
                scaled_way(way_y, self.y, self.units_per_em),
            )
        };
        GlyphPosition {
            x_advance: self.across(x.0).saturating_add(self.across(x.1)),
            y_advance: self.up(y.0).saturating_add(self.up(y.1)),
            x_offset: way_x.saturating_sub(own.scaled_origin.0),
            y_offset: way_y.saturating_sub(own.scaled_origin.1),
            ..at
        }
    }

    /// Scales a box, whose edges are scaled.
    pub fn extents(self, extents: GlyphExtents) -> GlyphExtents {
        let (left, top) = (extents.x_bearing, extents.y_bearing);
        let x_bearing = self.across(left);
        let y_bearing = self.up(top);
        GlyphExtents {
            x_bearing,
            y_bearing,
            width: self.across(left + extents.width).saturating_sub(x_bearing),
            height: self.up(top + extents.height).saturating_sub(y_bearing),
        }
    }
}

/// What a glyph has by itself: its advance, and its origin in vertical text, in font units and scaled.
struct Metrics {
    advance: (i32, i32),
    origin: (i32, i32),
    scaled_origin: (i32, i32),
}

/// A number of font units in units of which an em has `scale`. The factor has 16 bits behind the point, and
/// halves are rounded up. (HarfBuzz's `em_mult`.)
// (not in line, since most texts are in the font's units)
#[inline(never)]
fn scaled(units: i32, scale: i32, units_per_em: u16) -> i32 {
    let factor = (i64::from(scale) << 16) / i64::from(units_per_em.max(1));
    bounded((i128::from(units) * i128::from(factor) + 0x8000) >> 16)
}

/// The same for the way between two anchors, for which HarfBuzz's factor isn't cut off.
fn scaled_way(units: i32, scale: i32, units_per_em: u16) -> i32 {
    let product = i128::from(units) * i128::from(scale);
    let em = i128::from(units_per_em.max(1));
    bounded((2 * product + em).div_euclid(2 * em))
}

fn bounded(number: i128) -> i32 {
    let number = number.clamp(i32::MIN.into(), i32::MAX.into());
    i32::try_from(number).unwrap_or_default()
}

#[cfg(test)]
mod tests {
    use super::{scaled, scaled_way};

    #[test]
    fn halves_are_rounded_up() {
        let halves = [1, -1, 3, -3].map(|units| scaled(units, 500, 1000));
        assert_eq!(halves, [1, 0, 2, -1]);
        assert_eq!([563, -50].map(|units| scaled(units, 16, 1000)), [9, -1]);
        assert_eq!(scaled(i32::MIN, i32::MAX, 16), i32::MIN);
        assert_eq!(scaled(7, -2000, 1000), -14);
    }

    #[test]
    fn ways_are_scaled_by_the_whole_factor() {
        let halves = [0, 1, -1, 3, -3].map(|units| scaled_way(units, 500, 1000));
        assert_eq!(halves, [0, 1, 0, 2, -1]);
        // (a third of 16 bits is a little less)
        assert_eq!(
            (scaled(-30_000, 1, 3), scaled_way(-30_000, 1, 3)),
            (-10_000, -10_000)
        );
        assert_eq!(
            (scaled(300_000, 1, 3), scaled_way(300_000, 1, 3)),
            (99_998, 100_000)
        );
        assert_eq!(scaled_way(1, -500, 1000), 0);
        assert_eq!(scaled_way(i32::MAX, i32::MAX, 1), i32::MAX);
    }
}
