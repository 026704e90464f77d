//! Texts in pieces: where a text may be broken, what a hook makes of its pieces, and pieces put
//! together anew.

use sengadlit::{Buffer, GlyphInfo};
use std::ops::Range;

/// These places of a buffer as a text of their own: nothing is seen of the places beside them.
pub fn piece(buffer: &Buffer, places: Range<usize>) -> Buffer {
    let mut piece = buffer.copy().unwrap();
    if places.start > 0 {
        piece.set_pre_context(&[]);
    }
    if places.end < buffer.len() {
        piece.set_post_context(&[]);
    }
    let glyphs = buffer.glyphs()[places].to_vec();
    piece.replace_glyphs(glyphs.into()).unwrap();
    piece
}

/// The glyph without its cluster and its glyph flags.
pub fn shown(glyph: &GlyphInfo) -> GlyphInfo {
    GlyphInfo {
        cluster: 0,
        mask: glyph.mask & !7,
        ..*glyph
    }
}

/// Whether two clusters meet at the place and no glyph of the greater one is unsafe to break, or has
/// the flag of tatweels in place of that.
pub fn is_clear(glyphs: &[GlyphInfo], place: usize) -> bool {
    let (left, right) = (glyphs[place - 1].cluster, glyphs[place].cluster);
    let greater = left.max(right);
    let mut in_greater = glyphs.iter().filter(|glyph| glyph.cluster == greater);
    left != right && in_greater.all(|glyph| glyph.mask & 5 == 0)
}

/// Whether the place is clear and no glyph of the cluster that begins there is unsafe to concatenate.
pub fn is_bare(glyphs: &[GlyphInfo], place: usize) -> bool {
    let own = glyphs[place].cluster;
    let mut in_own = glyphs.iter().filter(|glyph| glyph.cluster == own);
    is_clear(glyphs, place) && in_own.all(|glyph| glyph.mask & 2 == 0)
}

/// The glyphs of one text up to a place and, behind them, those of another from a place on.
pub fn put_together(one: &Buffer, end: usize, two: &Buffer, start: usize) -> Buffer {
    let mut both = one.copy().unwrap();
    both.set_post_context(two.post_context());
    let glyphs = [&one.glyphs()[..end], &two.glyphs()[start..]].concat();
    both.replace_glyphs(glyphs.into()).unwrap();
    both
}

/// The text with other glyphs in place of these.
pub fn edited(buffer: &Buffer, places: Range<usize>, others: &[GlyphInfo]) -> Buffer {
    let mut edited = buffer.copy().unwrap();
    let glyphs = buffer.glyphs();
    let glyphs = [&glyphs[..places.start], others, &glyphs[places.end..]].concat();
    edited.replace_glyphs(glyphs.into()).unwrap();
    edited
}

/// Whether a hook makes of the pieces before and after a place what it made of the whole.
pub fn breaks_at(
    buffer: &Buffer,
    whole: &[GlyphInfo],
    place: usize,
    mut hook: impl FnMut(&mut Buffer),
) -> bool {
    let mut front = piece(buffer, 0..place);
    let mut back = piece(buffer, place..buffer.len());
    hook(&mut front);
    hook(&mut back);
    let pieces = front.glyphs().iter().chain(back.glyphs());
    pieces.map(shown).eq(whole.iter().map(shown))
}
