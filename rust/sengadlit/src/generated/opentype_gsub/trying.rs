// Generated from crates/opentype_gsub/src/trying.rt by rust/erase; edit the source.

//! Which flags of concatenation a lookup sets at a place, by the rules that don't fit there.

use crate::generated::opentype_face::bytes::u16_at;
use crate::generated::opentype_face::lookup::{subtable, subtable_count, subtable_type};
use crate::generated::opentype_gsub::apply::{is_random, value};
use crate::generated::opentype_gsub::decided::{alternate, set_of, single};
use crate::generated::opentype_gsub::flagging::flag_joins;
use crate::generated::opentype_gsub::matching::first_fitting;
use crate::generated::opentype_gsub::pass::{Pass, Sights};
use crate::generated::opentype_layout::glyph_text::{GlyphText, GlyphView};
use crate::generated::opentype_layout::looking::{RuleSet, Stretch, context_rules};
use crate::generated::opentype_layout::rules::find_rule;
use crate::generated::opentype_layout::sight::number;

// Whether a subtable of type 4 has a ligature that fits a place.
fn ligates(
    pass: &Pass<'_>,
    sights: &Sights,
    bytes: &[u8],
    glyphs: &GlyphView<'_>,
    at: usize,
) -> bool {
    match set_of(bytes, number(glyphs.at(at))) {
        Some(set) => first_fitting(pass.classes.gdef, &sights.input, set, glyphs, at).is_some(),
        None => false,
    }
}

// Whether a subtable of type 3 has an alternate for the glyph at a place.
fn alternates(
    pass: &Pass<'_>,
    sights: &Sights,
    bytes: &[u8],
    glyphs: &GlyphView<'_>,
    at: usize,
) -> bool {
    let glyph = number(glyphs.at(at));
    if is_random(pass.lookup.random, &sights.input, glyphs.at(at)) {
        return match set_of(bytes, glyph) {
            Some(set) => u16_at(set, 0) != 0,
            None => false,
        };
    }
    alternate(bytes, glyph, value(&sights.input, glyphs.at(at))).is_some()
}

// Whether a subtable of types 1 to 4 does something at a place.
fn applies(
    pass: &Pass<'_>,
    sights: &Sights,
    kind: u16,
    bytes: &[u8],
    glyphs: &GlyphView<'_>,
    at: usize,
) -> bool {
    match kind {
        1 => single(bytes, number(glyphs.at(at))).is_some(),
        2 => set_of(bytes, number(glyphs.at(at))).is_some(),
        3 => alternates(pass, sights, bytes, glyphs, at),
        4 => ligates(pass, sights, bytes, glyphs, at),
        _ => false,
    }
}

// Whether one of a lookup's subtables does something at a place.
fn comes(
    pass: &Pass<'_>,
    sights: &Sights,
    lookup: &[u8],
    i: u16,
    glyphs: &GlyphView<'_>,
    at: usize,
) -> bool {
    let kind = subtable_type(7, lookup, i);
    let bytes = subtable(7, lookup, i);
    if kind == 5 || kind == 6 {
        let (input, context) = (&sights.input, &sights.context);
        return find_rule(
            kind == 6,
            pass.classes.gdef,
            input,
            context,
            bytes,
            None,
            glyphs,
            at,
        )
        .is_some();
    }
    applies(pass, sights, kind, bytes, glyphs, at)
}

// The rules that a subtable has for a glyph.
///
/// <details><summary>Contract</summary>
///
/// # Contract
///
/// ```text
/// ensures { option_map (λ set. rule_list set) result ≡ rules_in kind bytes.now glyph }
/// ```
///
/// - `rules_in`: `crates/opentype_gsub/specs/Looked.antt`
/// - `rule_list`: `crates/opentype_layout/specs/Looking.antt`
///
/// </details>
pub fn rules<'a>(kind: u16, bytes: &'a [u8], glyph: u16) -> Option<RuleSet<'a>> {
    match kind {
        4 => match set_of(bytes, glyph) {
            Some(set) => Some(RuleSet::Ligatures(set)),
            None => None,
        },
        5 => context_rules(false, bytes, glyph),
        6 => context_rules(true, bytes, glyph),
        _ => None,
    }
}

// The stretch that the rules of a subtable looked at, up to the first that fits.
fn look_by(
    pass: &Pass<'_>,
    sights: &Sights,
    lookup: &[u8],
    i: u16,
    glyphs: &GlyphView<'_>,
    at: usize,
) -> Stretch {
    let kind = subtable_type(7, lookup, i);
    match rules(kind, subtable(7, lookup, i), number(glyphs.at(at))) {
        Some(rules) => {
            let (input, context) = (&sights.input, &sights.context);
            rules.look(pass.classes.gdef, input, context, pass.len, glyphs, at)
        }
        None => Stretch::none(at),
    }
}

// The stretch that the subtables of a lookup looked at, up to the first that does something.
fn look_among(
    pass: &Pass<'_>,
    sights: &Sights,
    lookup: &[u8],
    glyphs: &GlyphView<'_>,
    at: usize,
) -> Stretch {
    let mut looked = Stretch::none(at);
    for i in 0..subtable_count(lookup) {
        looked = looked.join(look_by(pass, sights, lookup, i, glyphs, at));
        if comes(pass, sights, lookup, i, glyphs, at) {
            return looked;
        }
    }
    looked
}

// Flags what a lookup's rules look at that don't fit a place. (Few callers want that.)
#[inline(never)]
fn flag_looked(pass: &Pass<'_>, lookup: &[u8], text: &mut GlyphText, at: usize) {
    let sights = pass.lookup.sights(pass.classes.gdef, lookup, text.at(at));
    let looked = look_among(pass, &sights, lookup, &text.view(), at);
    flag_joins(text, looked);
}

/// The same where that is wanted.
#[inline]
pub(crate) fn flag_tried(pass: &Pass<'_>, lookup: &[u8], text: &mut GlyphText, at: usize) {
    if !pass.concat {
        return;
    }
    if at >= text.len() {
        return;
    }
    flag_looked(pass, lookup, text, at);
}
