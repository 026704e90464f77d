// Generated from crates/shapers_buffer/src/buffer/replacing.rt by rust/erase; edit the source.

//! Other glyphs for the buffer's, texts rewritten, and glyphs copied with their positions.

use crate::support::prelude::*;

use super::Buffer;
use super::glyph::GlyphInfo;
use super::placement::make_room;
use super::refusal::ShaperError;
use core::mem;

/// A rewriting of a whole text, which may change the glyphs that it reads.
pub trait GlyphRewriting {
    /// Writes what these glyphs become to an empty list, which has room for it.
    ///
    /// <details><summary>Contract</summary>
    ///
    /// # Contract
    ///
    /// ```text
    /// requires can { can_rewrite self.now glyphs.old }
    /// requires empty { to.old.items ≡ [] }
    /// requires room { length (rewrites self.now glyphs.old) ≤ vec_capacity to.old }
    /// ensures text { to.new.items ≡ rewrites self.now glyphs.old }
    /// ensures capacity { vec_capacity to.old ≤ vec_capacity to.new }
    /// ```
    ///
    /// </details>
    fn rewrite(&self, glyphs: &mut [GlyphInfo], to: &mut Vec<GlyphInfo>);
}

impl Buffer {
    /// Rewrites the text to `len` glyphs; the buffer has no positions afterwards. Refuses by their
    /// number, before anything changes. The text is out of the buffer meanwhile: a rewriting that
    /// panics leaves the buffer empty.
    ///
    /// # Errors
    ///
    /// [`TooLong`] and [`Memory`]; nothing has changed then.
    ///
    /// # Panics
    ///
    /// Where the rewriting does. Where the buffer has positions, they are no longer one per glyph.
    ///
    /// <details><summary>Contract</summary>
    ///
    /// # Contract
    ///
    /// ```text
    /// requires can { R.can_rewrite rewriting.now self.old.glyphs }
    /// requires length { length (R.rewrites rewriting.now self.old.glyphs) ≡ len }
    /// ensures ok { OnOk result (self.new ≡ record self.old {
    ///   glyphs = R.rewrites rewriting.now self.old.glyphs;
    ///   positions = [];
    /// }) }
    /// ensures length { RefusesLength self.old.max_len len result }
    /// ensures err { OnErr result (self.new ≡ self.old) }
    /// ```
    ///
    /// - `RefusesLength`: `crates/shapers_buffer/specs/Refusals.antt`
    ///
    /// </details>
    ///
    /// [`Memory`]: crate::ShaperError::Memory
    /// [`TooLong`]: crate::ShaperError::TooLong
    #[inline]
    pub fn rewrite<R: GlyphRewriting>(
        &mut self,
        len: usize,
        rewriting: &R,
    ) -> Result<(), ShaperError> {
        if len > self.max_len {
            return Err(ShaperError::TooLong);
        }
        make_room(&mut self.places, &mut self.spare, &mut self.group_room, len)?;
        self.info.reserve(len.saturating_sub(self.info.len()))?;
        self.spare.clear();
        self.pos.clear();
        let alloc = self.alloc();
        let mut glyphs = mem::replace(&mut self.info, Vec::new(alloc));
        rewriting.rewrite(&mut glyphs, &mut self.spare);
        // (in plain Rust a caller's rewriting may write more than it should)
        self.spare.truncate(len);
        self.info = mem::replace(&mut self.spare, glyphs);
        Ok(())
    }

    /// Puts these glyphs in the place of the buffer's, which has no positions afterwards, and keeps
    /// the list that they replace as room for [`take_list`](Self::take_list). Refuses by their
    /// number, whatever the buffer held.
    ///
    /// # Errors
    ///
    /// [`TooLong`] and [`Memory`]; nothing has changed then.
    ///
    /// <details><summary>Contract</summary>
    ///
    /// # Contract
    ///
    /// ```text
    /// ensures ok { OnOk result (self.new ≡
    ///     record self.old { glyphs = glyphs.items; positions = [] }) }
    /// ensures length { RefusesLength self.old.max_len (length glyphs.items) result }
    /// ensures err { OnErr result (self.new ≡ self.old) }
    /// ```
    ///
    /// - `RefusesLength`: `crates/shapers_buffer/specs/Refusals.antt`
    ///
    /// </details>
    ///
    /// [`Memory`]: crate::ShaperError::Memory
    /// [`TooLong`]: crate::ShaperError::TooLong
    #[inline]
    pub fn replace_glyphs(&mut self, glyphs: Vec<GlyphInfo>) -> Result<(), ShaperError> {
        if glyphs.len() > self.max_len {
            return Err(ShaperError::TooLong);
        }
        make_room(
            &mut self.places,
            &mut self.spare,
            &mut self.group_room,
            glyphs.len(),
        )?;
        self.rooms.list = mem::replace(&mut self.info, glyphs);
        self.pos.clear();
        Ok(())
    }

    /// Copies the glyph at `from`, with its position, to `to`.
    ///
    /// # Panics
    ///
    /// Where one of the places is none of the buffer.
    ///
    /// <details><summary>Contract</summary>
    ///
    /// # Contract
    ///
    /// ```text
    /// requires from_in_range { from < length self.old.glyphs }
    /// requires to_in_range { to < length self.old.glyphs }
    /// ensures { self.new ≡ copied_to from to self.old }
    /// ```
    ///
    /// - `copied_to`: `crates/shapers_buffer/specs/Buffer.antt`
    ///
    /// </details>
    #[inline]
    pub(crate) fn copy_glyph(&mut self, from: usize, to: usize) {
        copy_in(&mut self.info, from, to);
        if !self.pos.is_empty() {
            copy_in(&mut self.pos, from, to);
        }
    }
}

// Puts a copy of the item at one place at another, too.
#[inline]
fn copy_in<T: Copy>(items: &mut [T], from: usize, to: usize) {
    items[to] = items[from];
}
