//! The buffer: the glyphs of a text, and its settings.

/// The buffer that the hooks rewrite.
///
/// # What a panic leaves
///
/// Where a caller's font or tables panic, the hook or pause leaves the buffer as it was, or empty with
/// the settings of a new one. Where the context of [`normalize`] panics, the buffer is as it was, or
/// empty with its own settings; so it is where a rewriting ([`Buffer::rewrite`]) panics. A change of
/// the caller's own ([`Buffer::with_glyphs_mut`]) that panics leaves what it wrote to the glyphs.
///
/// [`normalize`]: crate::ot_shape_normalize::normalize
pub use crate::generated::shapers_buffer::buffer::Buffer;
pub use crate::generated::shapers_buffer::buffer::{
    BufferClusterLevel, BufferFlags, BufferSettings, CONTEXT_LENGTH, Direction, GeneralCategory,
    GlyphInfo, GlyphPosition, GlyphProps, GlyphRewriting, LigProps, LookupRecord, Script,
    ShaperError, Span, Tag, UnicodeProps, context_characters, glyph_flag, modified_combining_class,
    spans_cover,
};

#[cfg(test)]
mod tests;
