// Generated from crates/shapers_hangul/src/ot_shaper_hangul/rewriting.rt by rust/erase; edit the source.

//! The text rewritten, item after item.

use crate::support::prelude::*;

use super::item::{Item, first_item, stays_alone};
use crate::generated::shapers_base::buffer::{
    Buffer, BufferClusterLevel, BufferFlags, GlyphInfo, GlyphRewriting, ShaperError,
    unsafe_to_break_in,
};
use crate::generated::shapers_base::font::Font;
use crate::generated::shapers_base::plan::BreakFlags;
use crate::generated::shapers_clusters::carried_groups::CarriedGroups;
use crate::generated::shapers_clusters::floods::floods_again;
use crate::support::alloc::{AllocError, Global};
use crate::support::arrayvec::ArrayVec;

// The item at a place of the text.
#[inline]
fn item_at<F: Font>(font: &F, circles: bool, glyphs: &[GlyphInfo], place: usize) -> Item {
    first_item(font, circles, rest_from(glyphs, place))
}

// The text from a place on.
#[inline]
fn rest_from(glyphs: &[GlyphInfo], place: usize) -> &[GlyphInfo] {
    &glyphs[place..]
}

// How far a look at each character tells that the text stays as it is.
#[inline]
fn kept_len<F: Font>(font: &F, circles: bool, glyphs: &[GlyphInfo]) -> usize {
    let mut place = 0;
    while place < glyphs.len() && stays_alone(font, circles, rest_from(glyphs, place)) {
        place += 1;
    }
    place
}

// So many items take no memory.
const FEW: usize = 8;

// The items that change a text, each with the place of its first character, as long as memory was
// found: `few`, and once they are more all of them in `many`.
struct Cut {
    few: ArrayVec<(usize, Item), FEW>,
    many: Vec<(usize, Item)>,
    is_whole: bool,
}

impl Cut {
    // None so far.
    #[inline]
    fn new(alloc: Global) -> Self {
        Cut {
            few: ArrayVec::new(),
            many: Vec::new(alloc),
            is_whole: true,
        }
    }

    // The items.
    #[inline]
    fn items(&self) -> &[(usize, Item)] {
        if self.many.is_empty() {
            self.few.as_slice()
        } else {
            self.many.as_slice()
        }
    }

    // One more, unless it stays as it is, of a text of so many characters.
    #[inline]
    fn add(&mut self, place: usize, item: Item, len: usize) {
        if item.is_kept() {
            return;
        }
        if self.many.is_empty() {
            if !self.few.is_full() {
                self.few.push((place, item));
                return;
            }
            if self.list_few(len).is_err() {
                self.is_whole = false;
                return;
            }
        }
        if self.many.push((place, item)).is_err() {
            self.is_whole = false;
        }
    }

    // Lists the few items, with room for half the characters: most items take two or more.
    #[inline(never)]
    fn list_few(&mut self, len: usize) -> Result<(), AllocError> {
        self.many.reserve_exact(FEW + len / 2)?;
        self.many.extend_from_slice(self.few.as_slice())
    }
}

// The length of the result, where the text stays up to the place `kept`, and the items that change
// it from there on. Refuses where the result would be longer than `limit`, and for nothing else.
#[inline]
fn measure<F: Font>(
    font: &F,
    circles: bool,
    glyphs: &[GlyphInfo],
    kept: usize,
    limit: usize,
    cut: &mut Cut,
) -> Result<usize, ShaperError> {
    let mut room = limit - kept;
    let mut place = kept;
    while place < glyphs.len() {
        if stays_alone(font, circles, rest_from(glyphs, place)) {
            if room == 0 {
                return Err(ShaperError::TooLong);
            }
            room -= 1;
            place += 1;
            continue;
        }
        let item = item_at(font, circles, glyphs, place);
        if room < item.output_len() {
            return Err(ShaperError::TooLong);
        }
        room -= item.output_len();
        cut.add(place, item, glyphs.len());
        place += item.len();
    }
    Ok(limit - room)
}

// Flags each item, its tone with it.
#[inline]
fn flag_items(cut: &[(usize, Item)], glyphs: &mut [GlyphInfo]) {
    for entry in cut {
        unsafe_to_break_in(glyphs, entry.0, entry.0 + entry.1.len());
    }
}

// Flags what the choice adds.
#[inline]
fn flag_breaks(breaks: BreakFlags, cut: &[(usize, Item)], glyphs: &mut [GlyphInfo]) {
    match breaks {
        BreakFlags::AsCode => {}
        BreakFlags::Sound => flag_items(cut, glyphs),
    }
}

// Flags and merges what the items flag and merge, one after another.
#[inline]
fn join_items(
    cut: &[(usize, Item)],
    level: BufferClusterLevel,
    glyphs: &mut [GlyphInfo],
    alloc: Global,
) {
    if floods_again(glyphs) {
        let done = join_to_flood(cut, level, glyphs);
        join_carrying(&cut[done..], level, glyphs, alloc);
    } else {
        join_by_items(cut, level, glyphs);
    }
}

// Flags and merges what each item flags and merges, in a text that merges don't flood again and
// again.
#[inline]
fn join_by_items(cut: &[(usize, Item)], level: BufferClusterLevel, glyphs: &mut [GlyphInfo]) {
    for entry in cut {
        entry.1.join(level, glyphs, entry.0);
    }
}

// Does so up to the first item that floods what stands before it, that one included. Returns how many
// items these are.
#[inline]
fn join_to_flood(
    cut: &[(usize, Item)],
    level: BufferClusterLevel,
    glyphs: &mut [GlyphInfo],
) -> usize {
    for (i, entry) in cut.iter().enumerate() {
        let cluster = cluster_before(glyphs, entry.0);
        entry.1.join(level, glyphs, entry.0);
        if cluster_before(glyphs, entry.0) != cluster {
            return i + 1;
        }
    }
    cut.len()
}

// The cluster of the glyph before a place, or 0 where there is none.
#[inline]
fn cluster_before(glyphs: &[GlyphInfo], place: usize) -> u32 {
    if place == 0 {
        0
    } else {
        glyphs[place - 1].cluster
    }
}

// Flags and merges what each item flags and merges, in any text: what merges flood before their items
// is carried along, and written once.
#[inline(never)]
fn join_carrying(
    cut: &[(usize, Item)],
    level: BufferClusterLevel,
    glyphs: &mut [GlyphInfo],
    alloc: Global,
) {
    let mut groups = CarriedGroups::new(alloc);
    for entry in cut {
        join_behind(entry.1, level, &mut groups, glyphs, entry.0);
    }
    groups.write(glyphs);
}

// Flags and merges what the item at a place flags and merges, while one glyph stands for each group
// that it could flood.
#[inline]
fn join_behind(
    item: Item,
    level: BufferClusterLevel,
    groups: &mut CarriedGroups,
    glyphs: &mut [GlyphInfo],
    place: usize,
) {
    let count = groups.guard(glyphs, place, place + item.len());
    item.join(level, glyphs, place);
    groups.take_back(glyphs, count);
}

// Adds the text from one place to another.
#[inline]
fn write_stretch(glyphs: &[GlyphInfo], place: usize, end: usize, list: &mut Vec<GlyphInfo>) {
    if place != end {
        list.extend_from_slice(&glyphs[place..end]).unwrap();
    }
}

// Adds the text from a place on up to an item, and what the item becomes.
#[inline]
fn write_change(
    entry: &(usize, Item),
    glyphs: &[GlyphInfo],
    place: usize,
    list: &mut Vec<GlyphInfo>,
) {
    write_stretch(glyphs, place, entry.0, list);
    entry.1.write(rest_from(glyphs, entry.0), list);
}

// Adds the text, in which these items become what they become.
#[inline]
fn write_changes(cut: &[(usize, Item)], glyphs: &[GlyphInfo], list: &mut Vec<GlyphInfo>) {
    let mut place = 0;
    for entry in cut {
        write_change(entry, glyphs, place, list);
        place = entry.0 + entry.1.len();
    }
    list.extend_from_slice(rest_from(glyphs, place)).unwrap();
}

// What rewrites a text: the items that change it.
struct Rewriting<'a> {
    breaks: BreakFlags,
    cut: &'a [(usize, Item)],
    level: BufferClusterLevel,
    alloc: Global,
}

impl<'a> GlyphRewriting for Rewriting<'a> {
    // What is merged and flagged, on the old places, and then what the items become. (A merge would
    // take flags of falling clusters away.)
    #[inline]
    fn rewrite(&self, glyphs: &mut [GlyphInfo], to: &mut Vec<GlyphInfo>) {
        join_items(self.cut, self.level, glyphs, self.alloc);
        flag_breaks(self.breaks, self.cut, glyphs);
        write_changes(self.cut, glyphs, to);
    }
}

// Whether the caller lets circles be inserted.
#[inline]
fn wants_circles(buffer: &Buffer) -> bool {
    !buffer
        .flags()
        .contains(BufferFlags::DO_NOT_INSERT_DOTTED_CIRCLE)
}

/// Rewrites the text, unless every character stays as it is, and returns whether it did.
#[inline]
pub(super) fn rewrite_changes<F: Font>(
    breaks: BreakFlags,
    font: &F,
    buffer: &mut Buffer,
) -> Result<bool, ShaperError> {
    let circles = wants_circles(buffer);
    let (level, alloc) = (buffer.cluster_level(), buffer.alloc());
    let glyphs = buffer.glyphs();
    let kept = kept_len(font, circles, glyphs);
    if kept == buffer.len() {
        return Ok(false);
    }
    let mut cut = Cut::new(alloc);
    let len = measure(font, circles, glyphs, kept, buffer.max_len(), &mut cut)?;
    if !cut.is_whole {
        return Err(ShaperError::Memory);
    }
    if cut.items().is_empty() {
        return Ok(false);
    }
    let rewriting = Rewriting {
        breaks,
        cut: cut.items(),
        level,
        alloc,
    };
    buffer.rewrite(len, &rewriting)?;
    Ok(true)
}

// Rewrites the text.
#[inline]
pub(super) fn rewrite<F: Font>(
    breaks: BreakFlags,
    font: &F,
    buffer: &mut Buffer,
) -> Result<(), ShaperError> {
    rewrite_changes(breaks, font, buffer)?;
    Ok(())
}
