// Generated from crates/opentype_gpos/src/trying.rt by rust/erase; edit the source.

//! Which flags of concatenation a lookup sets at a place, by what it looks at in vain there.

use crate::generated::opentype_face::bytes::{table_at, u16_at};
use crate::generated::opentype_face::lookup::subtable_count;
use crate::generated::opentype_gpos::anchors::joint_of;
use crate::generated::opentype_gpos::coming::come_by;
use crate::generated::opentype_gpos::moved::{does_move, is_vertical};
use crate::generated::opentype_gpos::moves::{Move, pair_of};
use crate::generated::opentype_gpos::nearby::{
    any, are_beside, base_glyph, glyph_before_mark, is_mark_glyph, next_glyph, number,
    previous_glyph,
};
use crate::generated::opentype_gpos::pass::{Pass, Sights};
use crate::generated::opentype_layout::glyph_text::GlyphView;
use crate::generated::opentype_layout::looking::{Stretch, context_rules, count, flag_joins};
use crate::generated::opentype_layout::position_tables::PositionRef;
use crate::generated::opentype_layout::sight::Sight;
use crate::generated::opentype_layout::starts::LookupTable;
use crate::generated::shapers_buffer::buffer::{Direction, GlyphInfo};

// Whether a search for any glyph passes over one.
#[inline]
fn passes_any(gdef: &[u8], sight: &Sight, glyph: &GlyphInfo) -> bool {
    any(gdef, sight, glyph).is_none()
}

// The place behind the glyph at which a search from a place on ends.
fn stop_behind(gdef: &[u8], sight: &Sight, glyphs: &[GlyphInfo], from: usize) -> usize {
    for i in from..glyphs.len() {
        if !passes_any(gdef, sight, &glyphs[i]) {
            return i + 1;
        }
    }
    from.max(glyphs.len())
}

// How many glyphs before a place a search backwards looks at.
fn count_back(gdef: &[u8], sight: &Sight, glyphs: &[GlyphInfo], at: usize) -> usize {
    for i in 0..at {
        if !passes_any(gdef, sight, &glyphs[at - 1 - i]) {
            return i + 1;
        }
    }
    at
}

// A stretch that a subtable looked at from a place.
#[inline]
fn span(at: usize, start: usize, stop: usize, glyphs: &[GlyphInfo]) -> Stretch {
    count(at, glyphs.len(), glyphs.len(), start, stop)
}

// Whether the values of a pair move nothing.
fn is_idle(direction: Direction, change: &Move) -> bool {
    match change {
        Move::Kerns(pair) => {
            let vertical = is_vertical(direction);
            !(does_move(vertical, &pair.first_value) || does_move(vertical, &pair.second_value))
        }
        Move::Adds(_) | Move::Attaches(_) | Move::Joins(_) => false,
    }
}

// What a pair's subtable looked at, where there is a second glyph.
fn look_at_pair(
    direction: Direction,
    bytes: &[u8],
    place: u32,
    glyphs: &[GlyphInfo],
    at: usize,
    second: usize,
) -> Stretch {
    match pair_of(bytes, place, glyphs, at, second) {
        Some(change) => {
            if u16_at(bytes, 0) == 2 && is_idle(direction, &change) {
                span(at, at, second + 1, glyphs)
            } else {
                Stretch::none(at)
            }
        }
        None => span(at, at, second + 1, glyphs),
    }
}

fn look_for_pair(
    pass: &Pass<'_>,
    sight: &Sight,
    bytes: &[u8],
    place: u32,
    glyphs: &[GlyphInfo],
    at: usize,
) -> Stretch {
    match next_glyph(pass.gdef, sight, glyphs, at + 1) {
        Some(second) => look_at_pair(pass.direction, bytes, place, glyphs, at, second),
        None => {
            let stop = stop_behind(pass.gdef, sight, glyphs, at + 1);
            span(at, at, stop, glyphs)
        }
    }
}

// The glyphs from one before a place on, if it has no part in what the subtable does.
#[inline]
fn from_it(fits: bool, at: usize, to: usize, glyphs: &[GlyphInfo]) -> Stretch {
    if fits {
        return Stretch::none(at);
    }
    span(at, to, at + 1, glyphs)
}

fn look_for_exit(
    gdef: &[u8],
    sight: &Sight,
    it: &PositionRef<'_>,
    glyphs: &[GlyphInfo],
    at: usize,
) -> Stretch {
    if joint_of(it, 0, number(&glyphs[at])).is_none() {
        return Stretch::none(at);
    }
    match previous_glyph(gdef, sight, glyphs, at) {
        Some(to) => {
            let fits = joint_of(it, 2, number(&glyphs[to])).is_some();
            from_it(fits, at, to, glyphs)
        }
        None => {
            let back = count_back(gdef, sight, glyphs, at);
            span(
                at,
                at.saturating_sub(back.saturating_add(1)),
                at + 1,
                glyphs,
            )
        }
    }
}

// Whether a subtable's second set has a glyph.
#[inline]
fn is_second(it: &PositionRef<'_>, glyphs: &[GlyphInfo], to: usize) -> bool {
    it.second_place(number(&glyphs[to])).is_some()
}

fn look_for_base(
    gdef: &[u8],
    sight: &Sight,
    it: &PositionRef<'_>,
    glyphs: &[GlyphInfo],
    at: usize,
) -> Stretch {
    let bases = table_at(it.bytes, usize::from(u16_at(it.bytes, 4)));
    match base_glyph(gdef, sight, false, bases, glyphs, at) {
        Some(to) => from_it(is_second(it, glyphs, to), at, to, glyphs),
        None => span(at, 0, at + 1, glyphs),
    }
}

// Whether a ligature of a subtable has components.
fn has_components(it: &PositionRef<'_>, glyphs: &[GlyphInfo], to: usize) -> bool {
    let Some(i) = it.second_place(number(&glyphs[to])) else {
        return false;
    };
    let ligatures = table_at(it.bytes, usize::from(u16_at(it.bytes, 10)));
    if i >= u32::from(u16_at(ligatures, 0)) {
        return false;
    }
    let place = usize::from(u16_at(ligatures, 2 + i as usize * 2));
    u16_at(table_at(ligatures, place), 0) != 0
}

fn look_for_ligature(
    gdef: &[u8],
    sight: &Sight,
    it: &PositionRef<'_>,
    glyphs: &[GlyphInfo],
    at: usize,
) -> Stretch {
    match base_glyph(gdef, sight, true, &[], glyphs, at) {
        Some(to) => from_it(has_components(it, glyphs, to), at, to, glyphs),
        None => span(at, 0, at + 1, glyphs),
    }
}

// Whether a glyph is a mark of a subtable that is of the same base.
fn is_mark_of(it: &PositionRef<'_>, glyphs: &[GlyphInfo], at: usize, to: usize) -> bool {
    is_mark_glyph(&glyphs[to]) && are_beside(&glyphs[at], &glyphs[to]) && is_second(it, glyphs, to)
}

fn look_for_mark(
    gdef: &[u8],
    sight: &Sight,
    it: &PositionRef<'_>,
    glyphs: &[GlyphInfo],
    at: usize,
) -> Stretch {
    match glyph_before_mark(gdef, sight, glyphs, at) {
        Some(to) => from_it(is_mark_of(it, glyphs, at, to), at, to, glyphs),
        None => {
            let mut of_marks = *sight;
            of_marks.flag = sight.flag & 0xFFF1;
            let back = count_back(gdef, &of_marks, glyphs, at);
            span(
                at,
                at.saturating_sub(back.saturating_add(1)),
                at + 1,
                glyphs,
            )
        }
    }
}

// What a subtable of one of types 1 to 6 looked at.
fn look_by_move(
    pass: &Pass<'_>,
    sight: &Sight,
    it: &PositionRef<'_>,
    glyphs: &[GlyphInfo],
    at: usize,
) -> Stretch {
    let Some(place) = it.first_place(number(&glyphs[at])) else {
        return Stretch::none(at);
    };
    match it.kind {
        2 => look_for_pair(pass, sight, it.bytes, place, glyphs, at),
        3 => look_for_exit(pass.gdef, sight, it, glyphs, at),
        4 => look_for_base(pass.gdef, sight, it, glyphs, at),
        5 => look_for_ligature(pass.gdef, sight, it, glyphs, at),
        6 => look_for_mark(pass.gdef, sight, it, glyphs, at),
        _ => Stretch::none(at),
    }
}

// What one of a lookup's subtables looked at.
fn look_by(
    pass: &Pass<'_>,
    sights: &Sights,
    table: &LookupTable<'_>,
    i: u16,
    glyphs: &[GlyphInfo],
    at: usize,
) -> Stretch {
    let it = table.position(i);
    let (input, context) = (&sights.input, &sights.context);
    if it.kind == 7 || it.kind == 8 {
        return match context_rules(it.kind == 8, it.bytes, number(&glyphs[at])) {
            Some(rules) => {
                let text = GlyphView::of(glyphs);
                rules.look(pass.gdef, input, context, glyphs.len(), &text, at)
            }
            None => Stretch::none(at),
        };
    }
    look_by_move(pass, input, &it, glyphs, at)
}

// What the subtables of a lookup looked at, up to the first that does something.
fn look_among(
    pass: &Pass<'_>,
    sights: &Sights,
    lookup: &LookupTable<'_>,
    glyphs: &[GlyphInfo],
    at: usize,
) -> Stretch {
    let mut looked = Stretch::none(at);
    let count = subtable_count(lookup.bytes());
    for i in 0..count {
        looked = looked.join(look_by(pass, sights, lookup, i, glyphs, at));
        if come_by(pass, sights, lookup, i, glyphs, at).is_some() {
            return looked;
        }
    }
    looked
}

// Flags what a lookup looks at in vain at a place.
#[inline(never)]
fn flag_looked(
    pass: &Pass<'_>,
    sights: &Sights,
    lookup: &LookupTable<'_>,
    glyphs: &mut [GlyphInfo],
    at: usize,
) {
    let looked = look_among(pass, sights, lookup, glyphs, at);
    flag_joins(glyphs, looked);
}

/// Flags what a lookup looks at in vain at a place, where that is wanted.
#[inline]
pub(crate) fn flag_tried(
    pass: &Pass<'_>,
    sights: &Sights,
    lookup: &LookupTable<'_>,
    glyphs: &mut [GlyphInfo],
    at: usize,
) {
    if !pass.concat {
        return;
    }
    if at >= glyphs.len() {
        return;
    }
    flag_looked(pass, sights, lookup, glyphs, at);
}
