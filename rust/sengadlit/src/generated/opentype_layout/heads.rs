// Generated from crates/opentype_layout/src/heads.rt by rust/erase; edit the source.

//! A bit for each glyph that a lookup may begin at.

use crate::support::prelude::*;

use crate::generated::opentype_layout::bits::{first_bit, is_set, set_bit};
use crate::generated::opentype_layout::grid::Grid;
use crate::generated::opentype_layout::sight::number;
use crate::generated::shapers_buffer::buffer::GlyphInfo;
use crate::support::alloc::Global;

// Sets the bit of a row, if one of its columns has one.
#[inline]
fn mark_head(heads: &mut [u64], row: usize, words: &[u64], from: usize, end: usize) {
    if first_bit(words, from, end) < end {
        set_bit(heads, row);
    }
}

// Sets the bits of the rows of a grid that have a bit in one of so many columns.
fn mark_heads(heads: &mut [u64], grid: &Grid, words: &[u64], count: u16) {
    for row in 0..grid.rows as usize {
        let from = row * grid.width as usize;
        mark_head(heads, row, words, from, from + usize::from(count));
    }
}

/// The bits of the rows of a grid that have a bit in one of so many columns, if memory and a budget
/// suffice.
pub(crate) fn heads_of(
    alloc: Global,
    grid: &Grid,
    words: &[u64],
    count: u16,
    budget: &mut usize,
) -> Option<Vec<u64>> {
    let size = (grid.rows as usize).div_ceil(64);
    if size > *budget / 8 {
        return None;
    }
    *budget -= size * 8;
    let Ok(mut heads) = Vec::with_capacity(alloc, size) else {
        return None;
    };
    if heads.resize(size, 0u64).is_err() {
        return None;
    }
    mark_heads(&mut heads, grid, words, count);
    Some(heads)
}

// Whether a glyph has a bit of a mask, and one of its own.
#[inline]
fn is_headed(first: u16, heads: &[u64], mask: u32, glyph: &GlyphInfo) -> bool {
    if glyph.mask & mask == 0 {
        return false;
    }
    let number = number(glyph);
    number >= first && is_set(heads, usize::from(number - first))
}

/// The first place of a text, from one on, whose glyph has a bit of a mask, and one of its own; the
/// text's length, if there is none.
#[inline]
pub(crate) fn headed_place(
    first: u16,
    heads: &[u64],
    mask: u32,
    glyphs: &[GlyphInfo],
    from: usize,
) -> usize {
    for at in from..glyphs.len() {
        if is_headed(first, heads, mask, &glyphs[at]) {
            return at;
        }
    }
    glyphs.len()
}

/// The first place of a text, from one on, whose glyph has a bit of a mask; the text's length, if
/// there is none.
pub(crate) fn masked_place(mask: u32, glyphs: &[GlyphInfo], from: usize) -> usize {
    for at in from..glyphs.len() {
        if glyphs[at].mask & mask != 0 {
            return at;
        }
    }
    glyphs.len()
}
