// Generated from crates/shapers_buffer/src/buffer/glyph_flags.rt by rust/erase; edit the source.

//! The glyph flags: the low three bits of a mask, from which line breakers and the like see what a
//! change of the text at a glyph would do.

use super::glyph::GlyphInfo;
use super::merging::least_cluster;
use super::{Buffer, BufferFlags};

/// The glyph flags, by their bits.
pub mod glyph_flag {
    /// A line broken before the glyph's cluster wants shaping again.
    pub const UNSAFE_TO_BREAK: u32 = 1;
    /// A text cut or joined before the glyph's cluster wants shaping again.
    pub const UNSAFE_TO_CONCAT: u32 = 2;
    /// A tatweel may be put in before the glyph's cluster.
    pub const SAFE_TO_INSERT_TATWEEL: u32 = 4;
}

use glyph_flag::{SAFE_TO_INSERT_TATWEEL, UNSAFE_TO_BREAK, UNSAFE_TO_CONCAT};

impl Buffer {
    /// Flags the places from `start` to `end` whose cluster isn't the least one there: unsafe to
    /// break, and unsafe to concatenate.
    ///
    /// # Panics
    ///
    /// Where `start` is above `end`, or `end` above the length.
    ///
    /// <details><summary>Contract</summary>
    ///
    /// # Contract
    ///
    /// ```text
    /// requires in_order { start ≤ end }
    /// requires in_range { end ≤ length self.old.glyphs }
    /// ensures { self.new ≡ record self.old { glyphs = unsafe_inside start end self.old.glyphs } }
    /// ```
    ///
    /// - `unsafe_inside`: `crates/shapers_buffer/specs/GlyphFlags.antt`
    ///
    /// </details>
    #[inline]
    pub fn unsafe_to_break(&mut self, start: usize, end: usize) {
        unsafe_to_break_in(&mut self.info, start, end);
    }

    /// Flags every place from `start` to `end` as unsafe to concatenate, where the buffer wants
    /// that flag.
    ///
    /// # Panics
    ///
    /// Where `start` is above `end`, or `end` above the length.
    ///
    /// <details><summary>Contract</summary>
    ///
    /// # Contract
    ///
    /// ```text
    /// requires in_order { start ≤ end }
    /// requires in_range { end ≤ length self.old.glyphs }
    /// ensures { let asked = asks flags_concat self.old in
    ///     let flagged = unsafe_to_concat_in asked start end self.old.glyphs in
    ///     self.new ≡ record self.old { glyphs = flagged } }
    /// ```
    ///
    /// - `asks`, `flags_concat`: `crates/shapers_buffer/specs/Buffer.antt`
    /// - `flagged`, `unsafe_to_concat_in`: `crates/shapers_buffer/specs/GlyphFlags.antt`
    ///
    /// </details>
    #[inline]
    pub fn unsafe_to_concat(&mut self, start: usize, end: usize) {
        unsafe_to_concat_in(self.flags, &mut self.info, start, end);
    }

    /// Flags the places from `start` to `end` whose cluster isn't the least one there: safe to
    /// insert a tatweel, where the buffer wants that flag, else as `unsafe_to_break`.
    ///
    /// # Panics
    ///
    /// Where `start` is above `end`, or `end` above the length.
    ///
    /// <details><summary>Contract</summary>
    ///
    /// # Contract
    ///
    /// ```text
    /// requires in_order { start ≤ end }
    /// requires in_range { end ≤ length self.old.glyphs }
    /// ensures { let asked = asks flags_tatweel self.old in
    ///     let flagged = tatweel_inside asked start end self.old.glyphs in
    ///     self.new ≡ record self.old { glyphs = flagged } }
    /// ```
    ///
    /// - `asks`, `flags_tatweel`: `crates/shapers_buffer/specs/Buffer.antt`
    /// - `flagged`, `tatweel_inside`: `crates/shapers_buffer/specs/GlyphFlags.antt`
    ///
    /// </details>
    #[inline]
    pub fn safe_to_insert_tatweel(&mut self, start: usize, end: usize) {
        safe_to_insert_tatweel_in(self.flags, &mut self.info, start, end);
    }
}

/// No break inside the stretch, over glyphs in a slice, as [`Buffer::unsafe_to_break`].
///
/// # Panics
///
/// Where `start` is above `end`, or `end` above the length.
///
/// <details><summary>Contract</summary>
///
/// # Contract
///
/// ```text
/// requires in_order { start ≤ end }
/// requires in_range { end ≤ length glyphs.old }
/// ensures { glyphs.new ≡ unsafe_inside start end glyphs.old }
/// ```
///
/// - `unsafe_inside`: `crates/shapers_buffer/specs/GlyphFlags.antt`
///
/// </details>
///
/// [`Buffer::unsafe_to_break`]: crate::Buffer::unsafe_to_break
#[inline]
pub fn unsafe_to_break_in(glyphs: &mut [GlyphInfo], start: usize, end: usize) {
    flag(&mut glyphs[start..end], UNSAFE_TO_BREAK | UNSAFE_TO_CONCAT);
}

/// No concatenation in the stretch, where the flags want that, over glyphs in a slice, as
/// [`Buffer::unsafe_to_concat`].
///
/// # Panics
///
/// Where `start` is above `end`, or `end` above the length.
///
/// <details><summary>Contract</summary>
///
/// # Contract
///
/// ```text
/// requires in_order { start ≤ end }
/// requires in_range { end ≤ length glyphs.old }
/// ensures { glyphs.new ≡ unsafe_to_concat_in (has_flag flags_concat flags) start end glyphs.old }
/// ```
///
/// - `flags_concat`, `has_flag`: `crates/shapers_buffer/specs/Buffer.antt`
/// - `unsafe_to_concat_in`: `crates/shapers_buffer/specs/GlyphFlags.antt`
///
/// </details>
///
/// [`Buffer::unsafe_to_concat`]: crate::Buffer::unsafe_to_concat
#[inline]
pub fn unsafe_to_concat_in(flags: BufferFlags, glyphs: &mut [GlyphInfo], start: usize, end: usize) {
    if flags.contains(BufferFlags::PRODUCE_UNSAFE_TO_CONCAT) {
        flag_all(&mut glyphs[start..end], UNSAFE_TO_CONCAT);
    }
}

/// A join inside the stretch, over glyphs in a slice, as [`Buffer::safe_to_insert_tatweel`].
///
/// # Panics
///
/// Where `start` is above `end`, or `end` above the length.
///
/// <details><summary>Contract</summary>
///
/// # Contract
///
/// ```text
/// requires in_order { start ≤ end }
/// requires in_range { end ≤ length glyphs.old }
/// ensures { glyphs.new ≡ tatweel_inside (has_flag flags_tatweel flags) start end glyphs.old }
/// ```
///
/// - `flags_tatweel`, `has_flag`: `crates/shapers_buffer/specs/Buffer.antt`
/// - `tatweel_inside`: `crates/shapers_buffer/specs/GlyphFlags.antt`
///
/// </details>
///
/// [`Buffer::safe_to_insert_tatweel`]: crate::Buffer::safe_to_insert_tatweel
#[inline]
pub fn safe_to_insert_tatweel_in(
    flags: BufferFlags,
    glyphs: &mut [GlyphInfo],
    start: usize,
    end: usize,
) {
    let bits = if flags.contains(BufferFlags::PRODUCE_SAFE_TO_INSERT_TATWEEL) {
        SAFE_TO_INSERT_TATWEEL
    } else {
        UNSAFE_TO_BREAK | UNSAFE_TO_CONCAT
    };
    flag(&mut glyphs[start..end], bits);
}

// Adds mask bits to every glyph whose cluster isn't the least one of the stretch.
#[inline]
fn flag(stretch: &mut [GlyphInfo], bits: u32) {
    if stretch.is_empty() {
        return;
    }
    let least = least_cluster(stretch);
    for glyph in stretch.iter_mut() {
        if glyph.cluster != least {
            glyph.mask |= bits;
        }
    }
}

// Adds mask bits to every glyph of the stretch.
#[inline]
fn flag_all(stretch: &mut [GlyphInfo], bits: u32) {
    for glyph in stretch.iter_mut() {
        glyph.mask |= bits;
    }
}
