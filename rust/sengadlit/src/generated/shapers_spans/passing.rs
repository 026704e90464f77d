// Generated from crates/shapers_spans/src/passing.rt by rust/erase; edit the source.

//! What the universal grammar passes over.

use crate::generated::shapers_base::buffer::GlyphInfo;

// The categories of the joiners.
const CGJ: u8 = 6;

const ZWNJ: u8 = 14;

// Whether the first glyph that isn't CGJ is a mark.
#[inline]
fn next_is_mark(glyphs: &[GlyphInfo]) -> bool {
    for glyph in glyphs {
        if glyph.category != CGJ {
            return glyph.unicode_props.general_category().is_mark();
        }
    }
    false
}

// Whether the text begins with a glyph that is passed over.
#[inline]
fn begins_passed(glyphs: &[GlyphInfo]) -> bool {
    match glyphs[0].category {
        CGJ => true,
        ZWNJ => next_is_mark(&glyphs[1..]),
        _ => false,
    }
}

/// The first place from `n` on whose glyph is neither CGJ nor a ZWNJ before a mark.
#[inline]
pub(crate) fn next_read(glyphs: &[GlyphInfo], n: usize) -> usize {
    // nearly all glyphs are neither, and then a call would cost more than the answer
    if n < glyphs.len() && glyphs[n].category != CGJ && glyphs[n].category != ZWNJ {
        return n;
    }
    behind_passed(glyphs, n)
}

// The first place from `n` on whose glyph isn't passed over, found glyph by glyph.
#[inline(never)]
fn behind_passed(glyphs: &[GlyphInfo], n: usize) -> usize {
    for place in n..glyphs.len() {
        if !begins_passed(&glyphs[place..]) {
            return place;
        }
    }
    glyphs.len()
}
