// Generated from crates/shapers_prepare/src/ot_shape_prepare/joiners.rt by rust/erase; edit the source.

//! Flags of the graphemes that begin with ZWNJ.

use crate::generated::shapers_base::buffer::glyph_flag::{UNSAFE_TO_BREAK, UNSAFE_TO_CONCAT};
use crate::generated::shapers_base::buffer::{Buffer, GlyphInfo};
use crate::generated::shapers_base::plan::BreakFlags;

// ZWNJ, which keeps characters from joining and begins a grapheme.
const ZERO_WIDTH_NON_JOINER: u32 = 0x200C;

/// With `Sound`, flags each glyph of a grapheme that begins with ZWNJ unsafe to break and to
/// concatenate, as texts of the Indic shaper want it: its grammar takes ZWNJ to the syllable before
/// it, and its reordering moves that to the front, away from the rest of the grapheme. With `AsCode`
/// nothing changes.
///
/// <details><summary>Contract</summary>
///
/// # Contract
///
/// ```text
/// ensures glyphs { let text = zwnj_flagged break_flags buffer.old.glyphs in
///     buffer.new ≡ record buffer.old { glyphs = text } }
/// ensures flags { OnlyFlagsAdded buffer.old.glyphs buffer.new.glyphs }
/// ```
///
/// - `OnlyFlagsAdded`: `crates/shapers_clusters/specs/FlagLaw.antt`
/// - `zwnj_flagged`: `crates/shapers_prepare/specs/JoinerFlags.antt`
///
/// </details>
pub fn flag_zwnj_graphemes(break_flags: BreakFlags, buffer: &mut Buffer) {
    match break_flags {
        BreakFlags::AsCode => {}
        BreakFlags::Sound => buffer.with_glyphs_mut(flag_zwnj_graphemes_in),
    }
}

// Flags each grapheme of these glyphs that begins with ZWNJ.
fn flag_zwnj_graphemes_in(glyphs: &mut [GlyphInfo]) {
    let mut begins = false;
    for glyph in glyphs.iter_mut() {
        begins = begins_with_zwnj(begins, glyph);
        flag_if(begins, glyph);
    }
}

// Whether a glyph's grapheme begins with ZWNJ, where the one before it did or didn't.
#[inline]
fn begins_with_zwnj(before: bool, glyph: &GlyphInfo) -> bool {
    if glyph.unicode_props.is_continuation() {
        before
    } else {
        glyph.glyph_id == ZERO_WIDTH_NON_JOINER
    }
}

// Flags a glyph whose grapheme begins with ZWNJ.
#[inline]
fn flag_if(begins: bool, glyph: &mut GlyphInfo) {
    if begins {
        glyph.mask |= UNSAFE_TO_BREAK | UNSAFE_TO_CONCAT;
    }
}
