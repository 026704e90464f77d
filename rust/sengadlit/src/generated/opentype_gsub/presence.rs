// Generated from crates/opentype_gsub/src/presence.rt by rust/erase; edit the source.

//! Where a lookup may begin: most lookups have nothing to do in a text.

use crate::generated::opentype_gsub::pass::LookupUse;
use crate::generated::opentype_layout::glyph_text::GlyphView;
use crate::generated::opentype_layout::sight::number;
use crate::generated::opentype_layout::starts::LookupTable;
use crate::generated::shapers_buffer::buffer::GlyphInfo;

/// Whether a glyph's mask or a lookup's bits say that the lookup can't begin at the glyph.
#[inline]
pub(crate) fn is_passed(
    lookup_use: &LookupUse,
    lookup: &LookupTable<'_>,
    glyph: &GlyphInfo,
) -> bool {
    if glyph.mask & lookup_use.mask == 0 {
        return true;
    }
    !lookup.may_begin(false, number(glyph))
}

/// A place of a text before which a lookup can't begin; the text's length, if it begins nowhere. Where
/// the lookup has no bits, its bytes are searched.
#[inline]
pub(crate) fn first_place(
    lookup_use: &LookupUse,
    lookup: &LookupTable<'_>,
    glyphs: &[GlyphInfo],
) -> usize {
    lookup.first_place(false, lookup_use.mask, glyphs, 0)
}

/// The next place of a text, from one on, that is to be tried: a lookup can't begin at the glyphs
/// before it, as their masks or the lookup's bits say. The text's length, if there is none.
#[inline]
pub(crate) fn next_place(
    lookup_use: &LookupUse,
    lookup: &LookupTable<'_>,
    glyphs: &GlyphView<'_>,
    from: usize,
) -> usize {
    lookup.next_place(false, lookup_use.mask, glyphs, from)
}
