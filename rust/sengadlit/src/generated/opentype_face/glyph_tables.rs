// Generated from crates/opentype_face/src/glyph_tables.rt by rust/erase; edit the source.

//! Classes of glyphs, and places of glyphs in sets, by tables that are made once.

use crate::support::prelude::*;

use crate::generated::opentype_face::bytes::u16_at;
use crate::generated::opentype_face::glyph_sets::{class, coverage};
use crate::support::alloc::{AllocError, Global};

/// Glyphs that follow each other.
#[derive(Clone, Copy, Debug)]
struct Stretch {
    first: u16,
    count: u16,
}

// The glyphs from one to another, at most 65,535.
#[inline]
fn from_to(first: u16, last: u16) -> Stretch {
    if first > last {
        return Stretch { first, count: 0 };
    }
    Stretch {
        first,
        count: (last - first).min(65534) + 1,
    }
}

// The glyphs to which a table gives classes, if its ranges are in order.
fn classed(bytes: &[u8]) -> Stretch {
    match u16_at(bytes, 0) {
        1 => {
            let (first, count) = (u16_at(bytes, 2), u16_at(bytes, 4));
            from_to(first, first.saturating_add(count.saturating_sub(1)))
        }
        2 => {
            let count = usize::from(u16_at(bytes, 2));
            from_to(u16_at(bytes, 4), u16_at(bytes, count * 6))
        }
        _ => from_to(1, 0),
    }
}

// The glyphs of a set from the first to the last, if they are in order.
fn covered(set: &[u8]) -> Stretch {
    let count = usize::from(u16_at(set, 2));
    match u16_at(set, 0) {
        1 => from_to(u16_at(set, 4), u16_at(set, 2 + count * 2)),
        2 => from_to(u16_at(set, 4), u16_at(set, count * 6)),
        _ => from_to(1, 0),
    }
}

/// A table of classes, with the classes of the glyphs from its first to its last beside it.
#[derive(Debug)]
pub struct PreparedClassDef<'a> {
    /// The table in the font.
    pub bytes: &'a [u8],
    first: u16,
    classes: Vec<u16>,
}

// The classes of these glyphs.
fn classes_of(bytes: &[u8], glyphs: Stretch, alloc: Global) -> Result<Vec<u16>, AllocError> {
    let mut classes = Vec::with_capacity(alloc, usize::from(glyphs.count))?;
    for i in 0..glyphs.count {
        classes.push(class(bytes, glyphs.first + i))?;
    }
    Ok(classes)
}

impl<'a> PreparedClassDef<'a> {
    /// Makes the classes of each glyph once. A budget in bytes pays for them; where it or memory doesn't
    /// suffice, there are none.
    ///
    /// <details><summary>Contract</summary>
    ///
    /// # Contract
    ///
    /// ```text
    /// ensures { result.bytes.now ≡ bytes.now }
    /// ```
    ///
    /// </details>
    pub fn new(bytes: &'a [u8], alloc: Global, budget: &mut usize) -> Self {
        let glyphs = classed(bytes);
        let size = usize::from(glyphs.count) * 2;
        if size <= *budget {
            if let Ok(classes) = classes_of(bytes, glyphs, alloc) {
                *budget -= size;
                return PreparedClassDef {
                    bytes,
                    first: glyphs.first,
                    classes,
                };
            }
        }
        PreparedClassDef {
            bytes,
            first: 0,
            classes: Vec::new(alloc),
        }
    }

    /// The class of a glyph; without a search where the table has the glyph.
    ///
    /// <details><summary>Contract</summary>
    ///
    /// # Contract
    ///
    /// ```text
    /// ensures { result ≡ class_in self.now.bytes.now glyph }
    /// ```
    ///
    /// - `class_in`: `crates/opentype_face/specs/Glyphs.antt`
    ///
    /// </details>
    #[inline]
    pub fn class(&self, glyph: u16) -> u16 {
        if glyph >= self.first {
            let at = usize::from(glyph - self.first);
            if at < self.classes.len() {
                return self.classes[at];
            }
        }
        class(self.bytes, glyph)
    }
}

/// A set of glyphs, with the places of the glyphs from its first to its last beside it.
#[derive(Debug)]
pub struct PreparedCoverage<'a> {
    /// The set's table in the font.
    pub set: &'a [u8],
    first: u16,
    // (one more than the place, or 0 for a glyph that isn't in the set)
    places: Vec<u16>,
}

// What the table keeps of a glyph, unless it is too great.
fn stored_place(set: &[u8], glyph: u16) -> Option<u16> {
    match coverage(set, glyph) {
        Some(place) => {
            if place < 65535 {
                Some(place as u16 + 1)
            } else {
                None
            }
        }
        None => Some(0),
    }
}

// The places of these glyphs in a set. (A place that is too great ends the table: no font has one.)
fn places_of(set: &[u8], glyphs: Stretch, alloc: Global) -> Result<Vec<u16>, AllocError> {
    let mut places = Vec::with_capacity(alloc, usize::from(glyphs.count))?;
    for i in 0..glyphs.count {
        match stored_place(set, glyphs.first + i) {
            Some(kept) => places.push(kept)?,
            None => return Ok(places),
        }
    }
    Ok(places)
}

impl<'a> PreparedCoverage<'a> {
    /// Finds the place of each glyph once. A budget in bytes pays for them; where it or memory doesn't
    /// suffice, there are none.
    ///
    /// <details><summary>Contract</summary>
    ///
    /// # Contract
    ///
    /// ```text
    /// ensures { result.set.now ≡ set.now }
    /// ```
    ///
    /// </details>
    pub fn new(set: &'a [u8], alloc: Global, budget: &mut usize) -> Self {
        let glyphs = covered(set);
        let size = usize::from(glyphs.count) * 2;
        if size <= *budget {
            if let Ok(places) = places_of(set, glyphs, alloc) {
                *budget -= size;
                return PreparedCoverage {
                    set,
                    first: glyphs.first,
                    places,
                };
            }
        }
        PreparedCoverage {
            set,
            first: 0,
            places: Vec::new(alloc),
        }
    }

    /// The place of a glyph in the set; without a search where the table has the glyph.
    ///
    /// <details><summary>Contract</summary>
    ///
    /// # Contract
    ///
    /// ```text
    /// ensures { result ≡ coverage_in self.now.set.now glyph }
    /// ```
    ///
    /// - `coverage_in`: `crates/opentype_face/specs/Glyphs.antt`
    ///
    /// </details>
    #[inline]
    pub fn place(&self, glyph: u16) -> Option<u32> {
        if glyph >= self.first {
            let at = usize::from(glyph - self.first);
            if at < self.places.len() {
                return match self.places[at] {
                    0 => None,
                    next => Some(u32::from(next) - 1),
                };
            }
        }
        coverage(self.set, glyph)
    }
}
