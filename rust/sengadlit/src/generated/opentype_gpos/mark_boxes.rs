// Generated from crates/opentype_gpos/src/mark_boxes.rt by rust/erase; edit the source.

//! Where marks come in a font without GPOS, by their classes and the boxes of glyphs.

use crate::generated::shapers_buffer::buffer::Direction;

/// A glyph's box, in font units.
#[derive(Clone, Copy, Debug, Default, PartialEq, Eq, Hash)]
pub struct GlyphBox {
    /// How far right of the origin it begins.
    pub x_bearing: i32,
    /// How far above the origin its top is.
    pub y_bearing: i32,
    /// How wide it is.
    pub width: i32,
    /// How far its bottom is above its top: below 0.
    pub height: i32,
}

/// A mark's height, and what is left for the next one.
#[derive(Clone, Copy, Debug)]
pub struct Height {
    /// How far up it goes.
    pub y: i32,
    /// The box that the next mark finds.
    pub rest: GlyphBox,
}

#[inline]
fn at_middle(base: &GlyphBox, mark: &GlyphBox) -> i32 {
    let room = base.width.saturating_sub(mark.width);
    base.x_bearing
        .saturating_add(room / 2)
        .saturating_sub(mark.x_bearing)
}

#[inline]
fn upon_edge(edge: i32, mark: &GlyphBox) -> i32 {
    edge.saturating_sub(mark.width / 2)
        .saturating_sub(mark.x_bearing)
}

#[inline]
fn between_letters(direction: Direction, base: &GlyphBox, mark: &GlyphBox) -> i32 {
    match direction {
        Direction::LeftToRight => upon_edge(base.x_bearing.saturating_add(base.width), mark),
        Direction::RightToLeft => upon_edge(base.x_bearing, mark),
        Direction::TopToBottom | Direction::BottomToTop | Direction::Invalid => {
            at_middle(base, mark)
        }
    }
}

/// How far right a mark of a class comes of where its base begins.
pub(crate) fn across_place(
    direction: Direction,
    class: u8,
    base: &GlyphBox,
    mark: &GlyphBox,
) -> i32 {
    match class {
        233 | 234 => between_letters(direction, base, mark),
        200 | 218 | 228 => base.x_bearing.saturating_sub(mark.x_bearing),
        216 | 222 | 232 => base
            .x_bearing
            .saturating_add(base.width)
            .saturating_sub(mark.width)
            .saturating_sub(mark.x_bearing),
        _ => at_middle(base, mark),
    }
}

#[inline]
fn is_as_gap(gap: u16, y: i32) -> bool {
    if gap == 0 {
        return y <= 0;
    }
    0 < y
}

#[inline]
fn with_below(y: i32, base: &GlyphBox, mark: &GlyphBox) -> GlyphBox {
    GlyphBox {
        height: base.height.saturating_sub(y).saturating_add(mark.height),
        ..*base
    }
}

fn placed_below(gap: u16, base: GlyphBox, mark: &GlyphBox) -> Height {
    let y = base
        .y_bearing
        .saturating_add(base.height)
        .saturating_sub(mark.y_bearing);
    if is_as_gap(gap, y) {
        let rest = with_below(y, &base, mark);
        return Height { y: 0, rest };
    }
    let height = base.height.saturating_add(mark.height);
    Height {
        y,
        rest: GlyphBox { height, ..base },
    }
}

#[inline]
fn down_half(gap: u16, y: i32) -> i32 {
    if is_as_gap(gap, y) {
        return 0;
    }
    0_i32.saturating_sub(y) / 2
}

#[inline]
fn with_above(half: i32, base: &GlyphBox, mark: &GlyphBox) -> GlyphBox {
    let up = base.y_bearing.saturating_add(half);
    let height = base.height.saturating_sub(half);
    GlyphBox {
        y_bearing: up.saturating_sub(mark.height),
        height: height.saturating_add(mark.height),
        ..*base
    }
}

fn placed_above(gap: u16, base: GlyphBox, mark: &GlyphBox) -> Height {
    let top = mark.y_bearing.saturating_add(mark.height);
    let y = base.y_bearing.saturating_sub(top);
    let half = down_half(gap, y);
    let rest = with_above(half, &base, mark);
    Height {
        y: y.saturating_add(half),
        rest,
    }
}

#[inline]
fn with_gap_below(gap: u16, base: &GlyphBox) -> GlyphBox {
    GlyphBox {
        height: base.height.saturating_sub(i32::from(gap)),
        ..*base
    }
}

#[inline]
fn with_gap_above(gap: u16, base: &GlyphBox) -> GlyphBox {
    GlyphBox {
        y_bearing: base.y_bearing.saturating_add(i32::from(gap)),
        height: base.height.saturating_sub(i32::from(gap)),
        ..*base
    }
}

/// How far up a mark of a class comes.
pub(crate) fn upright_place(gap: u16, class: u8, base: &GlyphBox, mark: &GlyphBox) -> Height {
    match class {
        218 | 220 | 222 | 233 => placed_below(gap, with_gap_below(gap, base), mark),
        200 | 202 => placed_below(gap, *base, mark),
        228 | 230 | 232 | 234 => placed_above(gap, with_gap_above(gap, base), mark),
        214 | 216 => placed_above(gap, *base, mark),
        _ => Height { y: 0, rest: *base },
    }
}

#[inline]
fn steps_before(from_right: bool, count: u8, component: u8) -> i32 {
    if from_right {
        i32::from(count).saturating_sub(i32::from(component))
    } else {
        i32::from(component).saturating_sub(1)
    }
}

#[inline]
fn component_start(steps: i32, count: u8, whole: &GlyphBox) -> i32 {
    let before = steps.saturating_mul(whole.width) / i32::from(count);
    whole.x_bearing.saturating_add(before)
}

/// The part of a ligature's box that one of its components has.
pub(crate) fn component_box(
    from_right: bool,
    count: u8,
    component: u8,
    whole: &GlyphBox,
) -> GlyphBox {
    let x_bearing = component_start(steps_before(from_right, count, component), count, whole);
    let width = whole.width / i32::from(count);
    GlyphBox {
        x_bearing,
        width,
        ..*whole
    }
}
