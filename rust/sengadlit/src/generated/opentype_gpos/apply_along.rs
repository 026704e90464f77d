// Generated from crates/opentype_gpos/src/apply_along.rt by rust/erase; edit the source.

//! Lookups along a text.

use crate::generated::opentype_gpos::calling::apply_rule;
use crate::generated::opentype_gpos::coming::{Came, come_to};
use crate::generated::opentype_gpos::making::{make_move, make_pair};
use crate::generated::opentype_gpos::pass::{Pass, Sights};
use crate::generated::opentype_gpos::trying::flag_tried;
use crate::generated::opentype_layout::looking::wants_concat;
use crate::generated::opentype_layout::sight::{Application, ignores_glyph};
use crate::generated::opentype_layout::starts::LookupTable;
use crate::generated::opentype_layout::tables::LayoutTable;
use crate::generated::shapers_buffer::buffer::{Buffer, GlyphInfo, GlyphPosition, PositionedWalk};

// What a lookup does at a place; returns the place that comes next.
#[inline]
fn step(
    pass: &Pass<'_>,
    sights: &Sights,
    lookup: &LookupTable<'_>,
    glyphs: &mut [GlyphInfo],
    positions: &mut [GlyphPosition],
    at: usize,
) -> usize {
    let (sight, glyph) = (&sights.input, &glyphs[at]);
    if glyph.mask & sight.mask == 0 || ignores_glyph(pass.gdef, sight.flag, sight.set, glyph) {
        return at + 1;
    }
    let came = come_to(pass, sights, lookup, glyphs, at);
    flag_tried(pass, sights, lookup, glyphs, at);
    match came {
        Some(Came::Moves(change)) => make_move(pass.direction, &change, at, glyphs, positions),
        Some(Came::Pairs(pair)) => make_pair(pass.direction, &pair, at, glyphs, positions),
        Some(Came::Fits(rule)) => {
            apply_rule(pass, &rule, glyphs, positions);
            rule.end
        }
        None => at + 1,
    }
}

// Applies a lookup along a text. Most lookups begin nowhere in it, and the others at few glyphs.
fn apply_along(
    pass: &Pass<'_>,
    lookup: &LookupTable<'_>,
    glyphs: &mut [GlyphInfo],
    positions: &mut [GlyphPosition],
) {
    let mask = pass.how.mask;
    let first = lookup.first_place(true, mask, glyphs, 0);
    if first >= glyphs.len() {
        return;
    }
    let sights = pass.sights(lookup.bytes());
    let (mut at, mut steps) = (first, glyphs.len() - first);
    while steps > 0 {
        at = step(pass, &sights, lookup, glyphs, positions, at);
        steps -= 1;
        let place = lookup.next_place_in(true, mask, glyphs, at);
        if place >= glyphs.len() || place - at >= steps {
            return;
        }
        steps -= place - at;
        at = place;
    }
}

// A lookup over a text with positions.
struct Walking<'a> {
    pass: Pass<'a>,
    lookup: LookupTable<'a>,
}

impl<'a> PositionedWalk for Walking<'a> {
    fn walk(&self, glyphs: &mut [GlyphInfo], positions: &mut [GlyphPosition]) {
        apply_along(&self.pass, &self.lookup, glyphs, positions);
    }
}

/// Applies a lookup of GPOS, by its number, to a text with positions, as a plan has it applied. It writes
/// positions and glyph flags alone.
///
/// <details><summary>Contract</summary>
///
/// # Contract
///
/// ```text
/// requires { length buffer.old.positions ≡ length buffer.old.glyphs }
/// ensures { buffer.new ≡ positioned gdef.now gpos.now index how.now buffer.old }
/// ```
///
/// - `positioned`: `crates/opentype_gpos/specs/Along.antt`
///
/// </details>
pub fn position(
    gdef: &[u8],
    gpos: &LayoutTable<'_>,
    index: u16,
    how: &Application,
    buffer: &mut Buffer,
) {
    let walking = Walking {
        pass: Pass {
            gdef,
            gpos,
            direction: buffer.direction(),
            how: *how,
            concat: wants_concat(buffer.flags()),
        },
        lookup: gpos.lookup(index),
    };
    buffer.walk_positioned(&walking);
}
