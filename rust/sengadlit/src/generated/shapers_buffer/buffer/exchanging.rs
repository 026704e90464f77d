// Generated from crates/shapers_buffer/src/buffer/exchanging.rt by rust/erase; edit the source.

//! Lists taken out of the buffer and exchanged with the caller's, so that no glyph is copied and
//! the caller's room is used again.

use crate::support::prelude::*;

use super::Buffer;
use super::glyph::{GlyphInfo, GlyphPosition};
use super::placement::make_room;
use super::refusal::ShaperError;
use super::settings::BufferSettings;
use core::mem;

impl Buffer {
    /// Takes the glyphs out. The buffer has no glyphs and no positions afterwards, and keeps its
    /// settings.
    ///
    /// <details><summary>Contract</summary>
    ///
    /// # Contract
    ///
    /// ```text
    /// ensures taken { result.items ≡ self.old.glyphs }
    /// ensures left { self.new ≡ record self.old { glyphs = []; positions = [] } }
    /// ```
    ///
    /// </details>
    #[inline]
    pub fn take_glyphs(&mut self) -> Vec<GlyphInfo> {
        let empty = Vec::new(self.alloc());
        self.pos.clear();
        mem::replace(&mut self.info, empty)
    }

    /// Takes the positions out. The buffer has none afterwards.
    ///
    /// <details><summary>Contract</summary>
    ///
    /// # Contract
    ///
    /// ```text
    /// ensures taken { result.items ≡ self.old.positions }
    /// ensures left { self.new ≡ record self.old { positions = [] } }
    /// ```
    ///
    /// </details>
    #[inline]
    pub fn take_positions(&mut self) -> Vec<GlyphPosition> {
        let empty = Vec::new(self.alloc());
        mem::replace(&mut self.pos, empty)
    }

    /// Exchanges the buffer's glyphs for those of the list; the buffer has no positions afterwards.
    /// Refuses by their number, and then both are as they were.
    ///
    /// # Errors
    ///
    /// [`TooLong`] and [`Memory`]; buffer and list are as they were then.
    ///
    /// <details><summary>Contract</summary>
    ///
    /// # Contract
    ///
    /// ```text
    /// ensures ok { OnOk result (self.new ≡
    ///     record self.old { glyphs = glyphs.old.items; positions = [] }) }
    /// ensures handed_out { OnOk result (glyphs.new.items ≡ self.old.glyphs) }
    /// ensures length { RefusesLength self.old.max_len (length glyphs.old.items) result }
    /// ensures err { OnErr result (self.new ≡ self.old) }
    /// ensures err_glyphs { OnErr result (glyphs.new ≡ glyphs.old) }
    /// ```
    ///
    /// - `RefusesLength`: `crates/shapers_buffer/specs/Refusals.antt`
    ///
    /// </details>
    ///
    /// [`Memory`]: crate::ShaperError::Memory
    /// [`TooLong`]: crate::ShaperError::TooLong
    #[inline]
    pub fn exchange_glyphs(&mut self, glyphs: &mut Vec<GlyphInfo>) -> Result<(), ShaperError> {
        if glyphs.len() > self.max_len {
            return Err(ShaperError::TooLong);
        }
        make_room(
            &mut self.places,
            &mut self.spare,
            &mut self.group_room,
            glyphs.len(),
        )?;
        self.pos.clear();
        mem::swap(&mut self.info, glyphs);
        Ok(())
    }

    /// Exchanges the buffer's positions for those of the list, none or one per glyph, and returns
    /// true; for any other number of them it returns false and nothing changes.
    ///
    /// <details><summary>Contract</summary>
    ///
    /// # Contract
    ///
    /// ```text
    /// ensures answer { result ≡ can_be_positions positions.old.items self.old }
    /// ensures changed { let taken = record self.old { positions = positions.old.items } in
    ///     self.new ≡ (if result then taken else self.old) }
    /// ensures handed_out { positions.new.items ≡
    ///     (if result then self.old.positions else positions.old.items) }
    /// ```
    ///
    /// - `can_be_positions`: `crates/shapers_buffer/specs/Buffer.antt`
    ///
    /// </details>
    #[inline]
    #[must_use]
    pub fn exchange_positions(&mut self, positions: &mut Vec<GlyphPosition>) -> bool {
        let fits = positions.is_empty() || positions.len() == self.info.len();
        if fits {
            mem::swap(&mut self.pos, positions);
        }
        fits
    }

    /// Exchanges the buffer's text for another: its glyphs, its positions and its settings. Positions
    /// that are not one per glyph are dropped. Refuses by the number of glyphs, and then all is as
    /// it was.
    ///
    /// # Errors
    ///
    /// [`TooLong`] where the glyphs are more than [`max_len`] of the settings, and [`Memory`]; both
    /// texts are as they were then.
    ///
    /// <details><summary>Contract</summary>
    ///
    /// # Contract
    ///
    /// ```text
    /// ensures ok { let placed = positions_of_text glyphs.old.items positions.old.items in
    ///     OnOk result (self.new ≡ with_text glyphs.old.items placed settings.now self.old) }
    /// ensures glyphs_out { OnOk result (glyphs.new.items ≡ self.old.glyphs) }
    /// ensures positions_out { OnOk result (positions.new.items ≡ self.old.positions) }
    /// ensures length { RefusesLength settings.now.max_len (length glyphs.old.items) result }
    /// ensures err { OnErr result (self.new ≡ self.old) }
    /// ensures err_glyphs { OnErr result (glyphs.new ≡ glyphs.old) }
    /// ensures err_positions { OnErr result (positions.new ≡ positions.old) }
    /// ```
    ///
    /// - `RefusesLength`: `crates/shapers_buffer/specs/Refusals.antt`
    /// - `positions_of_text`, `with_text`: `crates/shapers_buffer/specs/Settings.antt`
    ///
    /// </details>
    ///
    /// [`Memory`]: crate::ShaperError::Memory
    /// [`TooLong`]: crate::ShaperError::TooLong
    /// [`max_len`]: crate::Buffer::max_len
    #[inline]
    pub(crate) fn exchange_text(
        &mut self,
        glyphs: &mut Vec<GlyphInfo>,
        positions: &mut Vec<GlyphPosition>,
        settings: &BufferSettings,
    ) -> Result<(), ShaperError> {
        if glyphs.len() > settings.max_len {
            return Err(ShaperError::TooLong);
        }
        make_room(
            &mut self.places,
            &mut self.spare,
            &mut self.group_room,
            glyphs.len(),
        )?;
        let paired = positions.len() == glyphs.len();
        self.max_len = settings.max_len;
        mem::swap(&mut self.info, glyphs);
        mem::swap(&mut self.pos, positions);
        if !paired {
            self.pos.clear();
        }
        self.set_settings_within(settings);
        Ok(())
    }
}
