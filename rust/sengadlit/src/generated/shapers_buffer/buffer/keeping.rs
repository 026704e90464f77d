// Generated from crates/shapers_buffer/src/buffer/keeping.rt by rust/erase; edit the source.

//! A copy of a text that is kept while the text changes. Its lists are used again for the next
//! copy, so that a buffer that is shaped again takes no memory for it.

use crate::support::prelude::*;

use super::Buffer;
use super::glyph::{GlyphInfo, GlyphPosition};
use super::group_room::GroupRoom;
use super::placement::enlarge;
use super::refusal::ShaperError;
use crate::support::alloc::Global;
use core::mem;

// The lists of a copy that is no longer needed.
#[derive(Debug)]
pub(super) struct KeptRoom {
    pub(super) info: Vec<GlyphInfo>,
    pub(super) pos: Vec<GlyphPosition>,
    pub(super) places: Vec<usize>,
    pub(super) spare: Vec<GlyphInfo>,
}

impl KeptRoom {
    // No room; it takes no memory.
    #[inline]
    pub(super) fn new(alloc: Global) -> Self {
        KeptRoom {
            info: Vec::new(alloc),
            pos: Vec::new(alloc),
            places: Vec::new(alloc),
            spare: Vec::new(alloc),
        }
    }

    // Puts these lists of a text into the room, and makes room for a place and a glyph per glyph.
    #[inline]
    pub(super) fn fill(
        &mut self,
        info: &[GlyphInfo],
        pos: &[GlyphPosition],
        places: &[usize],
    ) -> Result<(), ShaperError> {
        refill(&mut self.info, info, info.len())?;
        refill(&mut self.pos, pos, pos.len())?;
        refill(&mut self.places, places, info.len())?;
        refill(&mut self.spare, &[], info.len())
    }
}

impl Buffer {
    /// An equal buffer, to be kept while this one changes. Where an earlier copy of a text that was
    /// as long has been handed to [`recycle`](Self::recycle), it takes no memory. Nothing changes.
    ///
    /// # Errors
    ///
    /// [`Memory`].
    ///
    /// <details><summary>Contract</summary>
    ///
    /// # Contract
    ///
    /// ```text
    /// ensures ok { IfOk result (λ kept. kept ≡ self.old) }
    /// ensures err { IfErr result (λ e. e ≡ Memory) }
    /// ensures same { self.new ≡ self.old }
    /// ```
    ///
    /// </details>
    ///
    /// [`Memory`]: crate::ShaperError::Memory
    #[inline]
    pub fn keep(&mut self) -> Result<Buffer, ShaperError> {
        let alloc = self.alloc();
        let room = mem::replace(&mut self.rooms.kept, KeptRoom::new(alloc));
        self.copy_into(room, GroupRoom::new(alloc))
    }

    /// Keeps the lists of a copy that is no longer needed as room for the next. Nothing changes.
    ///
    /// <details><summary>Contract</summary>
    ///
    /// # Contract
    ///
    /// ```text
    /// ensures { self.new ≡ self.old }
    /// ```
    ///
    /// </details>
    #[inline]
    pub fn recycle(&mut self, kept: Buffer) {
        self.rooms.kept = KeptRoom {
            info: kept.info,
            pos: kept.pos,
            places: kept.places,
            spare: kept.spare,
        };
    }

    /// Puts the kept copy in the place of what the buffer has become. The buffer's room stays.
    ///
    /// <details><summary>Contract</summary>
    ///
    /// # Contract
    ///
    /// ```text
    /// ensures { self.new ≡ kept }
    /// ```
    ///
    /// </details>
    pub fn restore(&mut self, kept: Buffer) {
        let changed = mem::replace(self, kept);
        self.group_room = changed.group_room;
        self.rooms = changed.rooms;
        self.rooms.kept = KeptRoom {
            info: changed.info,
            pos: changed.pos,
            places: changed.places,
            spare: changed.spare,
        };
    }
}

// Puts these items alone into the list, and makes room for `len`.
#[inline]
fn refill<T: Copy>(list: &mut Vec<T>, items: &[T], len: usize) -> Result<(), ShaperError> {
    let len = len.max(items.len());
    list.clear();
    if list.capacity() < len {
        enlarge(list, len)?;
    }
    list.extend_from_slice(items).unwrap();
    Ok(())
}
