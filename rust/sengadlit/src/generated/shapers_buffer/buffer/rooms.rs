// Generated from crates/shapers_buffer/src/buffer/rooms.rt by rust/erase; edit the source.

//! Room that the buffer lends to its callers, and keeps for the next text: lists of glyphs and of
//! positions. None is a part of the text.

use crate::support::prelude::*;

use super::Buffer;
use super::glyph::{GlyphInfo, GlyphPosition};
use super::keeping::KeptRoom;
use crate::support::alloc::Global;
use core::mem;

// Room for the copy that is kept of a text, and for another list of glyphs.
#[derive(Debug)]
pub(super) struct Rooms {
    pub(super) kept: KeptRoom,
    pub(super) list: Vec<GlyphInfo>,
}

impl Rooms {
    // No room; it takes no memory.
    #[inline]
    pub(super) fn new(alloc: Global) -> Self {
        Rooms {
            kept: KeptRoom::new(alloc),
            list: Vec::new(alloc),
        }
    }
}

impl Buffer {
    /// Takes out an empty list of glyphs, with the room that it has. Nothing else changes.
    ///
    /// <details><summary>Contract</summary>
    ///
    /// # Contract
    ///
    /// ```text
    /// ensures empty { result.items ≡ [] }
    /// ensures same { self.new ≡ self.old }
    /// ```
    ///
    /// </details>
    #[inline]
    pub fn take_list(&mut self) -> Vec<GlyphInfo> {
        emptied(&mut self.rooms.list)
    }

    /// Keeps a list of glyphs as room for the next. Nothing else changes.
    ///
    /// <details><summary>Contract</summary>
    ///
    /// # Contract
    ///
    /// ```text
    /// ensures { self.new ≡ self.old }
    /// ```
    ///
    /// </details>
    #[inline]
    pub fn give_list(&mut self, list: Vec<GlyphInfo>) {
        self.rooms.list = list;
    }

    /// An empty list of positions: in a buffer without positions the one that the last positions
    /// stood in, with its room. Nothing else changes.
    ///
    /// <details><summary>Contract</summary>
    ///
    /// # Contract
    ///
    /// ```text
    /// ensures empty { result.items ≡ [] }
    /// ensures same { self.new ≡ self.old }
    /// ```
    ///
    /// </details>
    #[inline]
    pub(crate) fn take_position_list(&mut self) -> Vec<GlyphPosition> {
        let none = Vec::new(self.alloc());
        if self.pos.is_empty() {
            mem::replace(&mut self.pos, none)
        } else {
            none
        }
    }
}

// Takes out the list, which is empty then and keeps its room. A list without room stands in its
// place.
#[inline]
fn emptied(list: &mut Vec<GlyphInfo>) -> Vec<GlyphInfo> {
    let none = Vec::new(*list.allocator());
    let mut taken = mem::replace(list, none);
    taken.clear();
    taken
}
