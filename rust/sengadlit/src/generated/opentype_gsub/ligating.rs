// Generated from crates/opentype_gsub/src/ligating.rt by rust/erase; edit the source.

//! Type 4: a ligature in the place of several glyphs, and the marks that belong to it.

use crate::generated::opentype_face::class_table::ClassTable;
use crate::generated::opentype_gsub::edits::{
    last_of, merge_up_to, place_behind, remove_all, replacement,
};
use crate::generated::opentype_layout::glyph_text::GlyphText;
use crate::generated::shapers_buffer::buffer::{
    BufferClusterLevel, GlyphInfo, GlyphProps, LigProps, UnicodeProps,
};

/// The components of a ligature as far as they are counted.
#[derive(Clone, Copy, Debug)]
pub struct Counted {
    // how many they are
    pub(crate) all: usize,
    // how many the last glyph has
    pub(crate) last: usize,
    // its ligature's number
    pub(crate) number: u8,
}

// How many components a glyph has.
#[inline]
fn components(glyph: &GlyphInfo) -> usize {
    let props = glyph.lig_props.0;
    if glyph.glyph_props.0 & 4 == 4 && props / 16 % 2 == 1 {
        usize::from(props % 16)
    } else {
        1
    }
}

impl Counted {
    // With one more glyph of the ligature.
    #[inline]
    fn with(self, glyph: &GlyphInfo) -> Self {
        let count = components(glyph);
        Counted {
            all: self.all.saturating_add(count),
            last: count,
            number: glyph.lig_props.0 / 32,
        }
    }
}

// Whether the glyph at a place is a mark.
#[inline]
fn is_mark(glyphs: &GlyphText, place: usize) -> bool {
    if place < glyphs.len() {
        glyphs.at(place).glyph_props.0 & 8 == 8
    } else {
        false
    }
}

#[inline]
fn is_base(glyphs: &GlyphText, place: usize) -> bool {
    if place < glyphs.len() {
        glyphs.at(place).glyph_props.0 & 2 == 2
    } else {
        false
    }
}

// Whether all glyphs at some places are marks.
fn all_marks(glyphs: &GlyphText, places: &[usize]) -> bool {
    places.iter().all(|place| is_mark(glyphs, *place))
}

fn of_marks(glyphs: &GlyphText, at: usize, places: &[usize]) -> bool {
    if !is_mark(glyphs, at) {
        return false;
    }
    all_marks(glyphs, places)
}

fn of_base(glyphs: &GlyphText, at: usize, places: &[usize]) -> bool {
    if !is_base(glyphs, at) {
        return false;
    }
    all_marks(glyphs, places)
}

// The number of the nearest ligature before a place, or 0.
fn nearest_number(glyphs: &GlyphText, at: usize) -> u8 {
    for i in (0..at).rev() {
        let number = glyphs.at(i).lig_props.0 / 32;
        if number != 0 {
            return number;
        }
    }
    0
}

// The number of a ligature; 0 where marks don't belong to it.
fn number(glyphs: &GlyphText, at: usize, places: &[usize]) -> u8 {
    if of_marks(glyphs, at, places) || of_base(glyphs, at, places) {
        return 0;
    }
    nearest_number(glyphs, at) % 7 + 1
}

// A glyph as a mark of a ligature with a number.
#[inline]
fn mark(number: u8, counted: Counted, glyph: GlyphInfo) -> GlyphInfo {
    let own = usize::from(glyph.lig_props.component());
    let inside = if own == 0 {
        counted.last
    } else {
        own.min(counted.last)
    };
    let component = counted.all.saturating_sub(counted.last) + inside;
    let mut new = glyph;
    new.lig_props = LigProps(number * 32 + (component % 16) as u8);
    new
}

// The glyph at a place becomes a mark of a ligature with a number.
fn mark_at(text: &mut GlyphText, i: usize, number: u8, counted: Counted) {
    let glyph = *text.at(i);
    text.set(i, mark(number, counted, glyph));
}

// With the glyph at a place.
fn with_glyph(counted: Counted, glyphs: &GlyphText, i: usize) -> Counted {
    counted.with(glyphs.at(i))
}

// Whether a place is one of the ligature's.
fn is_among(places: &[usize], i: usize) -> bool {
    places.iter().any(|place| *place == i)
}

// The glyph at a place: one of the ligature's, or a mark among them.
fn mark_one(
    text: &mut GlyphText,
    i: usize,
    places: &[usize],
    number: u8,
    counted: Counted,
) -> Counted {
    if is_among(places, i) {
        return with_glyph(counted, text, i);
    }
    if number == 0 {
        return counted;
    }
    mark_at(text, i, number, counted);
    counted
}

// The glyphs between the ligature's, up to its last one.
fn mark_inside(
    text: &mut GlyphText,
    at: usize,
    last: usize,
    places: &[usize],
    number: u8,
    counted: Counted,
) -> Counted {
    let (first, end) = (place_behind(text, at), place_behind(text, last));
    let mut counted = counted;
    for i in first..end {
        counted = mark_one(text, i, places, number, counted);
    }
    counted
}

// Whether the glyph at a place is a mark of the last one's component.
#[inline]
fn follows(counted: Counted, glyphs: &GlyphText, i: usize) -> bool {
    let props = glyphs.at(i).lig_props;
    props.0 / 32 == counted.number && props.component() != 0
}

// The marks from a place on that were of the last glyph.
fn mark_followers(text: &mut GlyphText, from: usize, number: u8, counted: Counted) {
    for i in from..text.len() {
        if !follows(counted, text, i) {
            return;
        }
        mark_at(text, i, number, counted);
    }
}

fn mark_behind(text: &mut GlyphText, of_marks: bool, from: usize, number: u8, counted: Counted) {
    if of_marks || counted.number == 0 {
        return;
    }
    mark_followers(text, from, number, counted);
}

#[inline]
fn letter(props: UnicodeProps) -> UnicodeProps {
    if props.0 % 32 == 12 {
        UnicodeProps(props.0 - 5)
    } else {
        props
    }
}

// A ligature's class, where the font has none.
#[inline]
fn guess(number: u8) -> u16 {
    if number == 0 { 0 } else { 4 }
}

// A glyph that comes in for several.
fn ligature(
    classes: &ClassTable<'_>,
    to: u16,
    number: u8,
    count: usize,
    glyph: GlyphInfo,
) -> GlyphInfo {
    let mut new = replacement(classes, to, guess(number), glyph);
    new.glyph_props = GlyphProps((new.glyph_props.0 | 32) & 65471);
    if number == 0 {
        return new;
    }
    new.lig_props = LigProps(number * 32 + 16 + (count % 16) as u8);
    new.unicode_props = letter(new.unicode_props);
    new
}

// The ligature in the place of the first glyph, in the cluster of all.
fn join(
    classes: &ClassTable<'_>,
    level: BufferClusterLevel,
    text: &mut GlyphText,
    at: usize,
    places: &[usize],
    to: u16,
) {
    let last = last_of(at, places);
    merge_up_to(level, text, at, last);
    let first = *text.at(at);
    let number = number(text, at, places);
    let of_marks = of_marks(text, at, places);
    let none = Counted {
        all: 0,
        last: 0,
        number: 0,
    };
    let counted = mark_inside(text, at, last, places, number, none.with(&first));
    let behind = place_behind(text, last);
    mark_behind(text, of_marks, behind, number, counted);
    text.set(at, ligature(classes, to, number, counted.all, first));
}

/// Puts one glyph in for the one at a place and those at other places behind it.
///
/// <details><summary>Contract</summary>
///
/// # Contract
///
/// ```text
/// requires here { at < length text.old }
/// requires behind { last_place at places.now < length text.old }
/// ensures { text.new ≡ ligated classes.now.gdef.now level at places.now to text.old }
/// ```
///
/// - `last_place`: `crates/opentype_gsub/specs/Edits.antt`
/// - `ligated`: `crates/opentype_gsub/specs/Ligated.antt`
///
/// </details>
pub fn ligate(
    classes: &ClassTable<'_>,
    level: BufferClusterLevel,
    text: &mut GlyphText,
    at: usize,
    places: &[usize],
    to: u16,
) {
    join(classes, level, text, at, places, to);
    remove_all(text, places);
}
