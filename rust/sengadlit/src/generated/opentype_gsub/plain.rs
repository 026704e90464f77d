// Generated from crates/opentype_gsub/src/plain.rt by rust/erase; edit the source.

//! Lookups that add no glyphs and have no rules, in the buffer's own list.

use crate::support::prelude::*;

use crate::generated::opentype_face::bytes::u16_at;
use crate::generated::opentype_gsub::apply::apply_in_room;
use crate::generated::opentype_gsub::pass::Pass;
use crate::generated::opentype_gsub::presence::next_place;
use crate::generated::opentype_gsub::trying::flag_tried;
use crate::generated::opentype_layout::glyph_text::GlyphText;
use crate::generated::opentype_layout::sight::{Sight, number};
use crate::generated::opentype_layout::starts::LookupTable;
use crate::generated::shapers_buffer::buffer::{Buffer, GlyphEditing, GlyphInfo, LookupRecord};

// Whether a subtable of a type puts single glyphs in, and has no rules.
#[inline]
fn is_plain(kind: u16) -> bool {
    kind == 1 || kind == 3 || kind == 4
}

/// Whether a lookup's table has subtables, and all of them put single glyphs in.
#[inline]
pub(crate) fn are_plain(lookup: &LookupTable<'_>) -> bool {
    let (count, kind) = (lookup.count(), u16_at(lookup.bytes(), 0));
    // (only in type 7 subtables have types of their own)
    if kind != 7 {
        return count > 0 && is_plain(kind);
    }
    for i in 0..count {
        if !is_plain(lookup.subtable(i).kind) {
            return false;
        }
    }
    count > 0
}

// What one of a lookup's subtables does at a place, by the number of the glyph there.
#[inline]
fn put_by(
    pass: &Pass<'_>,
    sight: &Sight,
    lookup: &LookupTable<'_>,
    i: u16,
    glyph: u16,
    text: &mut GlyphText,
    lookups: &mut LookupRecord,
    at: usize,
) -> Option<usize> {
    let subtable = lookup.subtable(i).at(glyph);
    apply_in_room(pass, sight, &subtable, text, lookups, at)
}

// What the first of a lookup's subtables that fits does at a place.
#[inline]
fn put_among(
    pass: &Pass<'_>,
    sight: &Sight,
    lookup: &LookupTable<'_>,
    text: &mut GlyphText,
    lookups: &mut LookupRecord,
    at: usize,
) -> Option<usize> {
    let glyph = number(text.at(at));
    let (count, mut from) = (lookup.count(), 0);
    while from < count {
        let Some(i) = lookup.next_start(false, glyph, from) else {
            return None;
        };
        match put_by(pass, sight, lookup, i, glyph, text, lookups, at) {
            Some(next) => return Some(next),
            None => from = i + 1,
        }
    }
    None
}

// What a lookup does at a place, behind the flags of what is tried in vain.
#[inline]
fn put_at(
    pass: &Pass<'_>,
    sight: &Sight,
    lookup: &LookupTable<'_>,
    text: &mut GlyphText,
    lookups: &mut LookupRecord,
    at: usize,
) -> Option<usize> {
    flag_tried(pass, lookup.bytes(), text, at);
    let seen = pass.lookup.sight_from(sight, text.at(at));
    put_among(pass, &seen, lookup, text, lookups, at)
}

// What a lookup does at a place that it may begin at; the next place.
#[inline]
fn step(
    pass: &Pass<'_>,
    sight: &Sight,
    lookup: &LookupTable<'_>,
    text: &mut GlyphText,
    lookups: &mut LookupRecord,
    at: usize,
) -> usize {
    if !pass.lookup.sees_in(pass.classes.gdef, sight, text.at(at)) {
        return at + 1;
    }
    match put_at(pass, sight, lookup, text, lookups, at) {
        Some(next) => next,
        None => at + 1,
    }
}

// Applies a lookup by its table along a text from a place on.
#[inline]
fn put_along(
    pass: &Pass<'_>,
    lookup: &LookupTable<'_>,
    text: &mut GlyphText,
    lookups: &mut LookupRecord,
    first: usize,
) {
    let sight = pass.lookup.sight(pass.classes.gdef, lookup.bytes());
    let (mut at, mut steps) = (first, text.len().saturating_sub(first));
    // (the first place was found before)
    let mut place = first;
    while steps > 0 {
        if place >= text.len() {
            return;
        }
        let passed = place - at;
        if passed >= steps {
            return;
        }
        at = step(pass, &sight, lookup, text, lookups, place);
        steps -= passed + 1;
        place = next_place(&pass.lookup, lookup, &text.view(), at);
    }
}

// A lookup by its table along a text from a place on, and the record of the text's lookups.
struct Putting<'a> {
    pass: &'a Pass<'a>,
    lookup: &'a LookupTable<'a>,
    first: usize,
    lookups: LookupRecord,
}

impl<'a> GlyphEditing for Putting<'a> {
    #[inline]
    fn edit(&mut self, glyphs: Vec<GlyphInfo>) -> Vec<GlyphInfo> {
        let mut text = GlyphText::new(glyphs);
        put_along(
            self.pass,
            self.lookup,
            &mut text,
            &mut self.lookups,
            self.first,
        );
        text.into_list()
    }
}

/// Applies a lookup whose subtables put single glyphs in, by its table and from a place on, to a
/// buffer without positions. It takes no memory.
#[inline]
pub(crate) fn apply_plain(
    pass: &Pass<'_>,
    lookup: &LookupTable<'_>,
    first: usize,
    buffer: &mut Buffer,
) {
    let mut putting = Putting {
        pass,
        lookup,
        first,
        lookups: buffer.lookup_record(),
    };
    buffer.edit_outside(&mut putting);
    buffer.set_lookup_record(putting.lookups);
}
