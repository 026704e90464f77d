// Generated from crates/opentype_gsub/src/reverse.rt by rust/erase; edit the source.

//! Type 8: one glyph for one by the glyphs around it, from the end of the text to its start.

use crate::generated::opentype_face::bytes::{table_at, u16_at};
use crate::generated::opentype_face::lookup::{subtable, subtable_count, subtable_type};
use crate::generated::opentype_gsub::decided::covered;
use crate::generated::opentype_gsub::edits::replace;
use crate::generated::opentype_gsub::flagging::{flag_joins, flag_stretch};
use crate::generated::opentype_gsub::pass::{Pass, Sights};
use crate::generated::opentype_gsub::presence::is_passed;
use crate::generated::opentype_layout::glyph_text::{GlyphText, GlyphView};
use crate::generated::opentype_layout::looking::{Stretch, count, sweep_back, sweep_behind};
use crate::generated::opentype_layout::pattern::Pattern;
use crate::generated::opentype_layout::rules::Rule;
use crate::generated::opentype_layout::sight::number;
use crate::generated::opentype_layout::starts::LookupTable;

// The glyphs before and behind the one.
fn around(bytes: &[u8]) -> Rule<'_> {
    let before_count = u16_at(bytes, 4);
    let behind_at = 6 + usize::from(before_count) * 2;
    Rule {
        before: Pattern::Sets(table_at(bytes, 6), bytes),
        before_count,
        input: Pattern::Glyphs(&[]),
        input_count: 1,
        behind: Pattern::Sets(table_at(bytes, behind_at + 2), bytes),
        behind_count: u16_at(bytes, behind_at),
        records: &[],
        count: 0,
    }
}

// Where the count of the glyphs stands that come in.
fn place_of_glyphs(bytes: &[u8]) -> usize {
    let behind_at = 6 + usize::from(u16_at(bytes, 4)) * 2;
    behind_at + 2 + usize::from(u16_at(bytes, behind_at)) * 2
}

/// A glyph that comes in for another one.
#[derive(Clone, Copy, Debug)]
pub struct Reversal {
    /// The glyph.
    pub glyph: u16,
    /// The first glyph that the rule looked at.
    pub start: usize,
    /// The place behind the last one.
    pub stop: usize,
}

// One glyph for another, by a subtable of type 8.
fn reversed(
    gdef: &[u8],
    sights: &Sights,
    bytes: &[u8],
    glyphs: &GlyphView<'_>,
    at: usize,
) -> Option<Reversal> {
    if u16_at(bytes, 0) != 1 {
        return None;
    }
    let Some(i) = covered(bytes, number(glyphs.at(at))) else {
        return None;
    };
    let from = place_of_glyphs(bytes);
    if i >= u32::from(u16_at(bytes, from)) {
        return None;
    }
    let (input, context) = (&sights.input, &sights.context);
    match around(bytes).fit(gdef, input, context, glyphs, at) {
        Some(matched) => Some(Reversal {
            glyph: u16_at(bytes, from + 2 + i as usize * 2),
            start: matched.start,
            stop: matched.stop,
        }),
        None => None,
    }
}

// The stretch that a subtable looked at that doesn't fit.
fn look_around(
    gdef: &[u8],
    sights: &Sights,
    bytes: &[u8],
    glyphs: &GlyphView<'_>,
    at: usize,
) -> Stretch {
    let (rule, context) = (around(bytes), &sights.context);
    let before = sweep_back(gdef, context, &rule.before, rule.before_count, glyphs, at);
    if before.found != rule.before_count {
        return Stretch::none(at);
    }
    let behind = sweep_behind(
        gdef,
        context,
        &rule.behind,
        rule.behind_count,
        glyphs,
        glyphs.after(at),
    );
    if behind.found == rule.behind_count {
        return Stretch::none(at);
    }
    let len = glyphs.len();
    count(at, len, len, at.saturating_sub(before.to), behind.to)
}

// Whether a subtable has a glyph to put in.
fn replaces(bytes: &[u8], glyph: u16) -> bool {
    match covered(bytes, glyph) {
        Some(i) => i < u32::from(u16_at(bytes, place_of_glyphs(bytes))),
        None => false,
    }
}

// The stretch that one of a lookup's subtables looked at that doesn't fit.
fn look(
    gdef: &[u8],
    sights: &Sights,
    lookup: &[u8],
    i: u16,
    glyphs: &GlyphView<'_>,
    at: usize,
) -> Stretch {
    if subtable_type(7, lookup, i) != 8 {
        return Stretch::none(at);
    }
    let bytes = subtable(7, lookup, i);
    if u16_at(bytes, 0) != 1 {
        return Stretch::none(at);
    }
    if replaces(bytes, number(glyphs.at(at))) {
        look_around(gdef, sights, bytes, glyphs, at)
    } else {
        Stretch::none(at)
    }
}

// The stretch that the subtables of a lookup looked at, up to the first that fits.
fn look_among(
    gdef: &[u8],
    sights: &Sights,
    lookup: &[u8],
    glyphs: &GlyphView<'_>,
    at: usize,
) -> Stretch {
    let mut looked = Stretch::none(at);
    for i in 0..subtable_count(lookup) {
        looked = looked.join(look(gdef, sights, lookup, i, glyphs, at));
        if nth(gdef, sights, lookup, i, glyphs, at).is_some() {
            return looked;
        }
    }
    looked
}

// Flags what a lookup looks at that doesn't fit a place, where that is wanted.
fn flag_tried(pass: &Pass<'_>, lookup: &[u8], text: &mut GlyphText, at: usize) {
    if !pass.concat {
        return;
    }
    let gdef = pass.classes.gdef;
    let sights = pass.lookup.sights(gdef, lookup, text.at(at));
    let looked = look_among(gdef, &sights, lookup, &text.view(), at);
    flag_joins(text, looked);
}

// One glyph for another, by one of a lookup's subtables.
fn nth(
    gdef: &[u8],
    sights: &Sights,
    lookup: &[u8],
    i: u16,
    glyphs: &GlyphView<'_>,
    at: usize,
) -> Option<Reversal> {
    if subtable_type(7, lookup, i) != 8 {
        return None;
    }
    reversed(gdef, sights, subtable(7, lookup, i), glyphs, at)
}

// One glyph for another, by the first subtable that fits.
fn first(
    gdef: &[u8],
    sights: &Sights,
    lookup: &[u8],
    glyphs: &GlyphView<'_>,
    at: usize,
) -> Option<Reversal> {
    for i in 0..subtable_count(lookup) {
        let found = nth(gdef, sights, lookup, i, glyphs, at);
        if found.is_some() {
            return found;
        }
    }
    None
}

// What a lookup does at a place.
fn step_back(pass: &Pass<'_>, lookup: &LookupTable<'_>, text: &mut GlyphText, at: usize) {
    let glyph = *text.at(at);
    if is_passed(&pass.lookup, lookup, &glyph) {
        return;
    }
    let bytes = lookup.bytes();
    if !pass.lookup.sees(pass.classes.gdef, bytes, &glyph) {
        return;
    }
    let sights = pass.lookup.sights(pass.classes.gdef, bytes, &glyph);
    flag_tried(pass, bytes, text, at);
    if let Some(it) = first(pass.classes.gdef, &sights, bytes, &text.view(), at) {
        let len = text.len();
        flag_stretch(text, len, it.start, it.stop);
        replace(&pass.classes, text, at, it.glyph, 0);
    }
}

/// Applies a lookup by its table from the last glyph of a text to its first one.
///
/// <details><summary>Contract</summary>
///
/// # Contract
///
/// ```text
/// ensures { text.new ≡ applied_backward (length text.old)
///     (lookup_stepped_back (setting_of pass.now) lookup.now) text.old }
/// ```
///
/// - `applied_backward`, `lookup_stepped_back`: `crates/opentype_gsub/specs/Reversed.antt`
/// - `setting_of`: `crates/opentype_gsub/specs/Setting.antt`
///
/// </details>
pub fn apply_backward(pass: &Pass<'_>, lookup: &LookupTable<'_>, text: &mut GlyphText) {
    for at in (0..text.len()).rev() {
        step_back(pass, lookup, text, at);
    }
}
