// Generated from crates/opentype_font/src/would_apply.rt by rust/erase; edit the source.

//! Whether a lookup of GSUB would apply to exactly some glyphs, as Indic's shaper asks of consonants.

use crate::support::prelude::*;

use crate::generated::opentype_face::bytes::{table_at, u16_at};
use crate::generated::opentype_face::glyph_sets::{class, coverage};
use crate::generated::opentype_face::lookup::{subtable, subtable_count, subtable_type};
use crate::generated::opentype_font::stages::is_absent;
use crate::generated::opentype_layout::class_refs::ClassRef;
use crate::generated::opentype_layout::pattern::Pattern;
use crate::generated::opentype_layout::tables::LayoutTable;
use crate::generated::shapers_base::buffer::GlyphInfo;
use crate::generated::shapers_base::font::GlyphId;

/// The type of an extension, whose subtables name another one.
const EXTENSION: u16 = 7;

/// How many subtables of a lookup are asked at most, and how many rules of a set.
const MOST_SUBTABLES: u16 = 256;

const MOST_RULES: u16 = 256;

/// Whether a lookup of GSUB would apply to exactly these glyphs; with `zero_context`, by a rule that
/// looks at no glyphs around them. At most 65,536 rules are asked, and none where the table's bits say
/// that the lookup begins at other glyphs. (OpenType, GSUB; HarfBuzz's [`would_apply`], which doesn't
/// test the coverage of classes and sets exactly.)
///
/// <details><summary>Contract</summary>
///
/// # Contract
///
/// ```text
/// ensures { result ≡ would_apply gsub.now index glyphs.now zero_context }
/// ```
///
/// - `would_apply`: `crates/opentype_font/specs/WouldApply.antt`
///
/// </details>
///
/// [`would_apply`]: crate::Font::would_apply
#[inline]
pub fn would_apply(
    gsub: &LayoutTable<'_>,
    index: u16,
    glyphs: &[GlyphId],
    zero_context: bool,
) -> bool {
    if begins_elsewhere(gsub, index, glyphs) {
        return false;
    }
    asked(gsub, index, glyphs, zero_context)
}

// The same by the font's bytes alone; a call of its own, so that most questions need no frame.
#[inline(never)]
fn asked(gsub: &LayoutTable<'_>, index: u16, glyphs: &[GlyphId], zero_context: bool) -> bool {
    lookup_applies(gsub.lookup(index).bytes(), glyphs, zero_context)
}

// Whether a lookup is known not to begin at the first of these glyphs.
#[inline]
fn begins_elsewhere(gsub: &LayoutTable<'_>, index: u16, glyphs: &[GlyphId]) -> bool {
    if glyphs.is_empty() {
        return false;
    }
    let text = [GlyphInfo {
        glyph_id: u32::from(glyphs[0].0),
        ..GlyphInfo::DEFAULT
    }];
    is_absent(gsub.present(false, &text), index)
}

fn lookup_applies(lookup: &[u8], glyphs: &[GlyphId], zero_context: bool) -> bool {
    for i in 0..subtable_count(lookup).min(MOST_SUBTABLES) {
        if nth_applies(lookup, glyphs, zero_context, i) {
            return true;
        }
    }
    false
}

fn nth_applies(lookup: &[u8], glyphs: &[GlyphId], zero_context: bool, i: u16) -> bool {
    let kind = subtable_type(EXTENSION, lookup, i);
    subtable_applies(kind, subtable(EXTENSION, lookup, i), glyphs, zero_context)
}

fn subtable_applies(kind: u16, bytes: &[u8], glyphs: &[GlyphId], zero_context: bool) -> bool {
    if glyphs.is_empty() || glyphs.len() > 65535 {
        return false;
    }
    match kind {
        1 | 2 | 3 | 8 => one_fits(kind, bytes, glyphs),
        4 => ligatures_fit(bytes, glyphs),
        5 => context_fits(bytes, glyphs),
        6 => chained_fits(bytes, glyphs, zero_context),
        _ => false,
    }
}

// The place of the first of these glyphs in the set that a subtable begins with.
#[inline]
fn place_of_first(bytes: &[u8], glyphs: &[GlyphId]) -> Option<u32> {
    coverage(table_at(bytes, usize::from(u16_at(bytes, 2))), glyphs[0].0)
}

// Types that look at one glyph.
fn one_fits(kind: u16, bytes: &[u8], glyphs: &[GlyphId]) -> bool {
    let format = u16_at(bytes, 0);
    let is_known = format == 1 || kind == 1 && format == 2;
    is_known && glyphs.len() == 1 && place_of_first(bytes, glyphs).is_some()
}

// Whether the glyphs from one on fit the places of a pattern, one after another.
fn fit_each(pattern: &Pattern<'_>, first: usize, glyphs: &[GlyphId]) -> bool {
    for i in 0..glyphs.len().saturating_sub(first) {
        if !pattern.fits(i as u16, glyphs[first + i].0) {
            return false;
        }
    }
    true
}

// A set of rules or ligatures, of those whose number stands at a place of a subtable.
#[inline]
fn rule_set(bytes: &[u8], at: usize, index: u32) -> &[u8] {
    if index < u32::from(u16_at(bytes, at)) {
        table_at(
            bytes,
            usize::from(u16_at(bytes, at + 2 + index as usize * 2)),
        )
    } else {
        &[]
    }
}

fn ligatures_fit(bytes: &[u8], glyphs: &[GlyphId]) -> bool {
    if u16_at(bytes, 0) != 1 {
        return false;
    }
    match place_of_first(bytes, glyphs) {
        Some(place) => has_ligature(rule_set(bytes, 4, place), glyphs),
        None => false,
    }
}

// Whether a ligature of a set is made of exactly these glyphs.
fn has_ligature(set: &[u8], glyphs: &[GlyphId]) -> bool {
    for i in 0..rule_count(set) {
        if ligature_fits(set, glyphs, i) {
            return true;
        }
    }
    false
}

fn ligature_fits(set: &[u8], glyphs: &[GlyphId], i: u16) -> bool {
    let ligature = nth(set, i);
    if usize::from(u16_at(ligature, 2)) != glyphs.len() {
        return false;
    }
    fit_each(&Pattern::Glyphs(table_at(ligature, 4)), 1, glyphs)
}

// How many of a set's rules or ligatures are asked.
#[inline]
fn rule_count(set: &[u8]) -> u16 {
    u16_at(set, 0).min(MOST_RULES)
}

// One of a set's rules or ligatures.
#[inline]
fn nth(set: &[u8], i: u16) -> &[u8] {
    table_at(set, usize::from(u16_at(set, 2 + usize::from(i) * 2)))
}

// Whether the glyphs behind the first one are these, or of these classes.
fn fit_numbers(numbers: &[u8], classes: Option<&[u8]>, glyphs: &[GlyphId]) -> bool {
    match classes {
        Some(of) => fit_each(&Pattern::Classes(numbers, ClassRef::of(of)), 1, glyphs),
        None => fit_each(&Pattern::Glyphs(numbers), 1, glyphs),
    }
}

// Contexts.
fn context_fits(bytes: &[u8], glyphs: &[GlyphId]) -> bool {
    let place = place_of_first(bytes, glyphs);
    match u16_at(bytes, 0) {
        1 => match place {
            Some(place) => rules_fit(rule_set(bytes, 4, place), None, glyphs),
            None => false,
        },
        2 if place.is_some() => {
            let classes = table_at(bytes, usize::from(u16_at(bytes, 4)));
            let set = rule_set(bytes, 6, u32::from(class(classes, glyphs[0].0)));
            rules_fit(set, Some(classes), glyphs)
        }
        3 => sets_fit(bytes, glyphs),
        _ => false,
    }
}

// A context by sets.
fn sets_fit(bytes: &[u8], glyphs: &[GlyphId]) -> bool {
    if usize::from(u16_at(bytes, 2)) != glyphs.len() {
        return false;
    }
    fit_each(&Pattern::Sets(table_at(bytes, 6), bytes), 0, glyphs)
}

// Whether a rule of a set of contexts has exactly these glyphs.
fn rules_fit(set: &[u8], classes: Option<&[u8]>, glyphs: &[GlyphId]) -> bool {
    for i in 0..rule_count(set) {
        if rule_fits(set, classes, glyphs, i) {
            return true;
        }
    }
    false
}

fn rule_fits(set: &[u8], classes: Option<&[u8]>, glyphs: &[GlyphId], i: u16) -> bool {
    let rule = nth(set, i);
    if usize::from(u16_at(rule, 0)) != glyphs.len() {
        return false;
    }
    fit_numbers(table_at(rule, 4), classes, glyphs)
}

// Chained contexts.
fn chained_fits(bytes: &[u8], glyphs: &[GlyphId], zero_context: bool) -> bool {
    let place = place_of_first(bytes, glyphs);
    match u16_at(bytes, 0) {
        1 => match place {
            Some(place) => chained_rules_fit(rule_set(bytes, 4, place), None, glyphs, zero_context),
            None => false,
        },
        2 if place.is_some() => {
            let classes = table_at(bytes, usize::from(u16_at(bytes, 6)));
            let set = rule_set(bytes, 10, u32::from(class(classes, glyphs[0].0)));
            chained_rules_fit(set, Some(classes), glyphs, zero_context)
        }
        3 => chained_sets_fit(bytes, glyphs, zero_context),
        _ => false,
    }
}

// Whether a rule of a set of chained contexts has exactly these glyphs.
fn chained_rules_fit(
    set: &[u8],
    classes: Option<&[u8]>,
    glyphs: &[GlyphId],
    zero_context: bool,
) -> bool {
    for i in 0..rule_count(set) {
        if chained_rule_fits(set, classes, glyphs, zero_context, i) {
            return true;
        }
    }
    false
}

// The glyphs before stand first in a rule, then its input without the first glyph, then those behind.
fn chained_rule_fits(
    set: &[u8],
    classes: Option<&[u8]>,
    glyphs: &[GlyphId],
    zero_context: bool,
    i: u16,
) -> bool {
    let rule = nth(set, i);
    let before = usize::from(u16_at(rule, 0));
    let input = 2 + before * 2;
    let count = usize::from(u16_at(rule, input));
    let behind = u16_at(rule, input + count * 2);
    if is_barred(zero_context, before, behind) {
        return false;
    }
    if count != glyphs.len() {
        return false;
    }
    fit_numbers(table_at(rule, input + 2), classes, glyphs)
}

// Whether a rule that looks at so many glyphs before its input and behind is barred, since no glyphs
// around count.
#[inline]
fn is_barred(zero_context: bool, before: usize, behind: u16) -> bool {
    zero_context && (before != 0 || behind != 0)
}

// A chained context by sets.
fn chained_sets_fit(bytes: &[u8], glyphs: &[GlyphId], zero_context: bool) -> bool {
    let before = usize::from(u16_at(bytes, 2));
    let input = 4 + before * 2;
    let count = usize::from(u16_at(bytes, input));
    let behind = u16_at(bytes, input + 2 + count * 2);
    if is_barred(zero_context, before, behind) {
        return false;
    }
    if count != glyphs.len() {
        return false;
    }
    fit_each(&Pattern::Sets(table_at(bytes, input + 2), bytes), 0, glyphs)
}
