// Generated from crates/opentype_gpos/src/coming.rt by rust/erase; edit the source.

//! What a lookup of GPOS comes to at a place of a text.

use crate::generated::opentype_gpos::moves::{Move, PairPlace, move_by, pair_by_table};
use crate::generated::opentype_gpos::nearby::number;
use crate::generated::opentype_gpos::pass::{Pass, Sights};
use crate::generated::opentype_layout::glyph_text::GlyphView;
use crate::generated::opentype_layout::rules::{Matched, find_rule};
use crate::generated::opentype_layout::starts::LookupTable;
use crate::generated::shapers_buffer::buffer::GlyphInfo;

/// What a lookup comes to at a place.
#[derive(Debug)]
pub enum Came<'a> {
    /// The glyph is moved.
    Moves(Move),
    /// The values of a pair are added.
    Pairs(PairPlace<'a>),
    /// A rule of a context fits.
    Fits(Matched<'a>),
}

// What one of a lookup's subtables comes to.
#[inline(never)]
pub(crate) fn come_by<'a>(
    pass: &Pass<'_>,
    sights: &Sights,
    table: &LookupTable<'a>,
    i: u16,
    glyphs: &[GlyphInfo],
    at: usize,
) -> Option<Came<'a>> {
    let it = table.position(i);
    let (input, context) = (&sights.input, &sights.context);
    if it.kind == 7 || it.kind == 8 {
        return match find_rule(
            it.kind == 8,
            pass.gdef,
            input,
            context,
            it.bytes,
            it.first,
            &GlyphView::of(glyphs),
            at,
        ) {
            Some(matched) => Some(Came::Fits(matched)),
            None => None,
        };
    }
    match move_by(pass.gdef, input, &it, glyphs, at) {
        Some(change) => Some(Came::Moves(change)),
        None => None,
    }
}

// What the first of a lookup's subtables that fits comes to, of those that may begin.
#[inline(never)]
fn come_among<'a>(
    pass: &Pass<'_>,
    sights: &Sights,
    lookup: &LookupTable<'a>,
    glyphs: &[GlyphInfo],
    at: usize,
) -> Option<Came<'a>> {
    let glyph = number(&glyphs[at]);
    let mut from = 0;
    while let Some(i) = lookup.next_start(true, glyph, from) {
        let found = come_by(pass, sights, lookup, i, glyphs, at);
        if found.is_some() {
            return found;
        }
        let count = lookup.count();
        if i + 1 >= count {
            return None;
        }
        from = i + 1;
    }
    None
}

// What the first of a lookup's subtables that fits comes to. Where they are all of pairs and have
// tables, these are asked one after another, which costs less than asking which of them begin.
#[inline]
fn come_first<'a>(
    pass: &Pass<'_>,
    sights: &Sights,
    lookup: &LookupTable<'a>,
    glyphs: &[GlyphInfo],
    at: usize,
) -> Option<Came<'a>> {
    let count = lookup.count();
    let mut i = 0;
    while i < count {
        let Some(table) = lookup.pair_table(i) else {
            return come_among(pass, sights, lookup, glyphs, at);
        };
        let found = pair_by_table(pass.gdef, &sights.input, table, glyphs, at);
        if let Some(pair) = found {
            return Some(Came::Pairs(pair));
        }
        i += 1;
    }
    None
}

/// What a lookup comes to at a place of a text, by its table: a move, or a rule that fits.
///
/// <details><summary>Contract</summary>
///
/// # Contract
///
/// ```text
/// ensures within { IfSome result (λ it. at < length glyphs.now) }
/// ensures value { option_map came result
///     ≡ came_in (setting_of pass.now) sights.now lookup.now glyphs.now at }
/// ```
///
/// - `came`, `came_in`, `setting_of`: `crates/opentype_gpos/specs/Coming.antt`
///
/// </details>
pub fn come_to<'a>(
    pass: &Pass<'_>,
    sights: &Sights,
    lookup: &LookupTable<'a>,
    glyphs: &[GlyphInfo],
    at: usize,
) -> Option<Came<'a>> {
    if at >= glyphs.len() {
        return None;
    }
    come_first(pass, sights, lookup, glyphs, at)
}
