// Generated from crates/shapers_stretch/src/ot_shaper_arabic_stretch/parts.rt by rust/erase; edit the source.

//! The parts of a text: what stands before a word, the word, and the sequence of tiles behind it.

use crate::generated::shapers_arabic::ot_shaper_arabic::arabic_action_t::{
    STRETCHING_REPEATING, is_stch,
};
use crate::generated::shapers_base::buffer::{GeneralCategory, GlyphInfo};

/// Where the last part of a text begins, and in it the word and the tiles.
#[derive(Clone, Copy)]
pub(super) struct LastPart {
    pub(super) start: usize,
    pub(super) word: usize,
    pub(super) tiles: usize,
}

/// The last part of these glyphs.
#[inline]
pub(super) fn last_part(glyphs: &[GlyphInfo]) -> LastPart {
    let tiles = glyphs.len() - count_last_tiles(glyphs);
    let word = tiles - count_last_in_word(&glyphs[..tiles]);
    let start = word - count_last_others(&glyphs[..word]);
    LastPart { start, word, tiles }
}

// How many tiles stand at the end.
#[inline]
fn count_last_tiles(glyphs: &[GlyphInfo]) -> usize {
    glyphs
        .iter()
        .rev()
        .take_while(|glyph| is_tile(glyph))
        .count()
}

// How many glyphs at the end can belong to the word before a sequence.
#[inline]
fn count_last_in_word(glyphs: &[GlyphInfo]) -> usize {
    glyphs
        .iter()
        .rev()
        .take_while(|glyph| in_word(glyph))
        .count()
}

// How many glyphs at the end are no tiles.
#[inline]
fn count_last_others(glyphs: &[GlyphInfo]) -> usize {
    glyphs
        .iter()
        .rev()
        .take_while(|glyph| !is_tile(glyph))
        .count()
}

/// Whether a glyph is a tile.
#[inline]
pub(super) fn is_tile(glyph: &GlyphInfo) -> bool {
    is_stch(glyph.auxiliary)
}

/// Whether a glyph is a tile that repeats.
#[inline]
pub(super) fn repeats(glyph: &GlyphInfo) -> bool {
    glyph.auxiliary == STRETCHING_REPEATING
}

// Whether a glyph can belong to the word before a sequence.
#[inline]
fn in_word(glyph: &GlyphInfo) -> bool {
    let ignorable = glyph.unicode_props.is_ignorable() && !glyph.glyph_props.is_substituted();
    !is_tile(glyph) && (ignorable || is_word_category(glyph.unicode_props.general_category()))
}

// Whether a character of this category can belong to the word before a sequence.
#[inline]
fn is_word_category(category: GeneralCategory) -> bool {
    use GeneralCategory::{Cn, Co, Lm, Lo, Mc, Me, Mn, Nd, Nl, No, Sc, Sk, Sm, So};
    matches!(
        category,
        Cn | Co | Lm | Lo | Mc | Me | Mn | Nd | Nl | No | Sc | Sk | Sm | So
    )
}
