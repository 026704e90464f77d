// Generated from crates/opentype_gsub/src/flagging.rt by rust/erase; edit the source.

//! Glyph flags: where a text can't be cut, since a lookup looked at both sides.

use crate::generated::opentype_layout::glyph_text::GlyphText;
use crate::generated::opentype_layout::looking::{Stretch, is_short};
use crate::generated::shapers_buffer::buffer::BufferFlags;

/// Flags a stretch as one with no break inside, as far as the text goes, in a text that had so many
/// glyphs. A stretch of more than 255 glyphs isn't flagged.
pub(crate) fn flag_stretch(text: &mut GlyphText, old_len: usize, start: usize, stop: usize) {
    let len = text.len();
    let end = len.min(stop);
    if start > end {
        return;
    }
    if is_short(end - start, old_len, len) {
        text.unsafe_to_break(start, end);
    }
}

/// Flags a stretch as one with no concatenation, as far as the text goes.
pub(crate) fn flag_joins(text: &mut GlyphText, looked: Stretch) {
    let end = text.len().min(looked.stop);
    if looked.start < end {
        let wanted = BufferFlags::PRODUCE_UNSAFE_TO_CONCAT;
        text.unsafe_to_concat(wanted, looked.start, end);
    }
}
