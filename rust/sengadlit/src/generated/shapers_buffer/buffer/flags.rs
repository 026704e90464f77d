// Generated from crates/shapers_buffer/src/buffer/flags.rt by rust/erase; edit the source.

use crate::support::bitflags::bitflag_items;

/// What the caller wants of the shapers; the numbers are this crate's own.
#[repr(transparent)]
#[derive(Clone, Copy, Debug, PartialEq, Eq, Hash)]
pub struct BufferFlags(pub u32);

bitflag_items! {
    impl BufferFlags: u32 {
        /// Broken syllables get no dotted circle.
        const DO_NOT_INSERT_DOTTED_CIRCLE = 0x20;
        /// The glyph flag [`UNSAFE_TO_CONCAT`] is wanted.
        ///
/// [`UNSAFE_TO_CONCAT`]: crate::buffer::glyph_flag::UNSAFE_TO_CONCAT
const PRODUCE_UNSAFE_TO_CONCAT = 0x40;
        /// The glyph flag [`SAFE_TO_INSERT_TATWEEL`] is wanted.
        ///
/// [`SAFE_TO_INSERT_TATWEEL`]: crate::buffer::glyph_flag::SAFE_TO_INSERT_TATWEEL
const PRODUCE_SAFE_TO_INSERT_TATWEEL = 0x80;
    }
}

// HarfBuzz's bits for the same flags.
const HARFBUZZ_CIRCLE: u32 = 0x10;

const HARFBUZZ_CONCAT: u32 = 0x40;

const HARFBUZZ_TATWEEL: u32 = 0x80;

impl BufferFlags {
    /// The flags among HarfBuzz's of the same name (`hb_buffer_flags_t`), whose bits are 0x10, 0x40
    /// and 0x80; all other bits of it are left out.
    ///
    /// <details><summary>Contract</summary>
    ///
    /// # Contract
    ///
    /// ```text
    /// ensures { result.0 ≡ from_harfbuzz bits }
    /// ```
    ///
    /// - `from_harfbuzz`: `crates/shapers_buffer/specs/Numbers.antt`
    ///
    /// </details>
    #[inline]
    pub fn from_harfbuzz(bits: u32) -> Self {
        let circle = flag_where(bits, HARFBUZZ_CIRCLE, Self::DO_NOT_INSERT_DOTTED_CIRCLE.0);
        let concat = flag_where(bits, HARFBUZZ_CONCAT, Self::PRODUCE_UNSAFE_TO_CONCAT.0);
        let tatweel = flag_where(
            bits,
            HARFBUZZ_TATWEEL,
            Self::PRODUCE_SAFE_TO_INSERT_TATWEEL.0,
        );
        BufferFlags(circle | concat | tatweel)
    }

    /// HarfBuzz's bits of these flags.
    ///
    /// <details><summary>Contract</summary>
    ///
    /// # Contract
    ///
    /// ```text
    /// ensures { result ≡ to_harfbuzz self.0 }
    /// ```
    ///
    /// - `to_harfbuzz`: `crates/shapers_buffer/specs/Numbers.antt`
    ///
    /// </details>
    #[inline]
    pub fn to_harfbuzz(self) -> u32 {
        let circle = flag_where(self.0, Self::DO_NOT_INSERT_DOTTED_CIRCLE.0, HARFBUZZ_CIRCLE);
        let concat = flag_where(self.0, Self::PRODUCE_UNSAFE_TO_CONCAT.0, HARFBUZZ_CONCAT);
        let tatweel = flag_where(
            self.0,
            Self::PRODUCE_SAFE_TO_INSERT_TATWEEL.0,
            HARFBUZZ_TATWEEL,
        );
        circle | concat | tatweel
    }
}

// The flag, where this bit is set.
#[inline]
fn flag_where(bits: u32, asked: u32, flag: u32) -> u32 {
    if bits & asked == asked { flag } else { 0 }
}
