// Generated from crates/opentype_gpos/src/anchors.rt by rust/erase; edit the source.

//! Where marks attach.

use crate::generated::opentype_face::bytes::{table_at, u16_at};
use crate::generated::opentype_gpos::values::i16_at;
use crate::generated::opentype_layout::position_tables::PositionRef;

/// A point of a glyph, in font units.
#[derive(Clone, Copy, Debug, PartialEq, Eq, Hash)]
pub struct Point {
    /// How far right of the glyph's origin it is.
    pub x: i32,
    /// How far above it.
    pub y: i32,
}

/// The point of an anchor.
///
/// <details><summary>Contract</summary>
///
/// # Contract
///
/// ```text
/// ensures { result ≡ point_in anchor.now }
/// ```
///
/// - `point_in`: `crates/opentype_gpos/specs/Anchors.antt`
///
/// </details>
#[inline]
pub fn point_at(anchor: &[u8]) -> Point {
    Point {
        x: i16_at(anchor, 2),
        y: i16_at(anchor, 4),
    }
}

// The points of a mark and a base, by their numbers.
fn of_numbers(
    marks: &[u8],
    bases: &[u8],
    classes: u16,
    mark: u32,
    base: u32,
) -> Option<(Point, Point)> {
    let class = u16_at(marks, 2 + mark as usize * 4);
    let cell = base as usize * usize::from(classes) + usize::from(class);
    let anchor = table_at(bases, usize::from(u16_at(bases, 2 + cell * 2)));
    if mark >= u32::from(u16_at(marks, 0))
        || base >= u32::from(u16_at(bases, 0))
        || class >= classes
        || u16_at(anchor, 0) == 0
    {
        return None;
    }
    let own = table_at(marks, usize::from(u16_at(marks, 4 + mark as usize * 4)));
    Some((point_at(anchor), point_at(own)))
}

/// The points of a base and a mark that come together, by a subtable of type 4 or 6 and by the place of
/// the mark in its set.
///
/// <details><summary>Contract</summary>
///
/// # Contract
///
/// ```text
/// ensures { result ≡ points_by it.now.bytes.now (Some mark) base }
/// ```
///
/// - `points_by`: `crates/opentype_gpos/specs/Anchors.antt`
///
/// </details>
pub fn points(it: &PositionRef<'_>, mark: u32, base: u16) -> Option<(Point, Point)> {
    let bytes = it.bytes;
    if u16_at(bytes, 0) != 1 {
        return None;
    }
    let base = it.second_place(base)?;
    let marks = table_at(bytes, usize::from(u16_at(bytes, 8)));
    let bases = table_at(bytes, usize::from(u16_at(bytes, 10)));
    of_numbers(marks, bases, u16_at(bytes, 6), mark, base)
}

#[inline]
fn row(component: u16, count: u16) -> u16 {
    if component == 0 || count < component {
        count - 1
    } else {
        component - 1
    }
}

// The points of a mark and of a component of a ligature, by the ligature's table.
fn of_component(
    marks: &[u8],
    ligature: &[u8],
    classes: u16,
    mark: u32,
    component: u16,
) -> Option<(Point, Point)> {
    let count = u16_at(ligature, 0);
    if count == 0 {
        return None;
    }
    of_numbers(
        marks,
        ligature,
        classes,
        mark,
        u32::from(row(component, count)),
    )
}

fn of_ligature(bytes: &[u8], component: u16, mark: u32, i: u32) -> Option<(Point, Point)> {
    let ligatures = table_at(bytes, usize::from(u16_at(bytes, 10)));
    if i >= u32::from(u16_at(ligatures, 0)) {
        return None;
    }
    let ligature = table_at(
        ligatures,
        usize::from(u16_at(ligatures, 2 + i as usize * 2)),
    );
    let marks = table_at(bytes, usize::from(u16_at(bytes, 8)));
    of_component(marks, ligature, u16_at(bytes, 6), mark, component)
}

/// The points of a component of a ligature and of a mark that come together, by a subtable of type 5
/// and by the place of the mark in its set.
/// Components count from 1 on; 0, and a number beyond the last one, mean the last one.
///
/// <details><summary>Contract</summary>
///
/// # Contract
///
/// ```text
/// ensures { result ≡ ligature_points_by it.now.bytes.now (Some mark) ligature component }
/// ```
///
/// - `ligature_points_by`: `crates/opentype_gpos/specs/Anchors.antt`
///
/// </details>
pub fn ligature_points(
    it: &PositionRef<'_>,
    mark: u32,
    ligature: u16,
    component: u16,
) -> Option<(Point, Point)> {
    if u16_at(it.bytes, 0) != 1 {
        return None;
    }
    let ligature = it.second_place(ligature)?;
    of_ligature(it.bytes, component, mark, ligature)
}

fn joint(bytes: &[u8], side: u16, i: u32) -> Option<Point> {
    let place = 6 + i as usize * 4 + usize::from(side);
    let anchor = table_at(bytes, usize::from(u16_at(bytes, place)));
    if i >= u32::from(u16_at(bytes, 4)) || u16_at(anchor, 0) == 0 {
        return None;
    }
    Some(point_at(anchor))
}

/// The point where a cursive line enters a glyph, for `side` 0, or leaves it, for `side` 2, by a
/// subtable of type 3.
///
/// <details><summary>Contract</summary>
///
/// # Contract
///
/// ```text
/// ensures { result ≡ joint_in it.now.bytes.now side glyph }
/// ```
///
/// - `joint_in`: `crates/opentype_gpos/specs/Anchors.antt`
///
/// </details>
pub fn joint_of(it: &PositionRef<'_>, side: u16, glyph: u16) -> Option<Point> {
    if u16_at(it.bytes, 0) != 1 {
        return None;
    }
    match it.first_place(glyph) {
        Some(i) => joint(it.bytes, side, i),
        None => None,
    }
}
