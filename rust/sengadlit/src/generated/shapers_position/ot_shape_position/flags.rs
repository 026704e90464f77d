// Generated from crates/shapers_position/src/ot_shape_position/flags.rt by rust/erase; edit the source.

//! The glyph flags of whole clusters.

use crate::generated::shapers_base::buffer::{Buffer, BufferFlags, GlyphInfo, glyph_flag};
use glyph_flag::{SAFE_TO_INSERT_TATWEEL, UNSAFE_TO_BREAK, UNSAFE_TO_CONCAT};

/// Gives all glyphs of a cluster the flags that one of them has, so that a line breaker may read
/// any. [`UNSAFE_TO_CONCAT`] is kept where the buffer wants it. Where it wants tatweels, a cluster
/// that is unsafe to break takes none before it, and one that takes one is unsafe to break and to
/// concatenate: the line would lose the tatweel. (HarfBuzz's `hb_propagate_flags`.)
///
/// <details><summary>Contract</summary>
///
/// # Contract
///
/// ```text
/// ensures { let text = flags_propagated buffer.old.flags buffer.old.glyphs in
///     buffer.new ≡ record buffer.old { glyphs = text } }
/// ```
///
/// - `flags_propagated`: `crates/shapers_position/specs/ClusterFlags.antt`
///
/// </details>
///
/// [`UNSAFE_TO_CONCAT`]: crate::buffer::glyph_flag::UNSAFE_TO_CONCAT
pub fn propagate_flags(buffer: &mut Buffer) {
    if !has_flags(buffer.glyphs()) {
        return;
    }
    let flags = buffer.flags();
    buffer.with_glyphs_mut(|glyphs| propagate_in(flags, glyphs));
}

// Whether one of these glyphs has flags.
#[inline]
fn has_flags(glyphs: &[GlyphInfo]) -> bool {
    glyphs.iter().any(is_flagged)
}

#[inline]
fn is_flagged(glyph: &GlyphInfo) -> bool {
    glyph.mask & 7 != 0
}

// Gives all glyphs of each cluster the same flags.
fn propagate_in(wanted: BufferFlags, glyphs: &mut [GlyphInfo]) {
    let mut start = 0;
    while start < glyphs.len() {
        let end = start + first_cluster_len(rest_from(glyphs, start));
        share_flags_from(wanted, glyphs, start, end);
        start = end;
    }
}

// The glyphs from a place on.
#[inline]
fn rest_from(glyphs: &[GlyphInfo], start: usize) -> &[GlyphInfo] {
    &glyphs[start..]
}

// How many glyphs are in the cluster that begins the text.
#[inline]
fn first_cluster_len(glyphs: &[GlyphInfo]) -> usize {
    1 + len_in_front(&glyphs[1..], glyphs[0].cluster)
}

// How many glyphs of a cluster begin the list.
#[inline]
fn len_in_front(glyphs: &[GlyphInfo], cluster: u32) -> usize {
    glyphs
        .iter()
        .take_while(|glyph| glyph.cluster == cluster)
        .count()
}

// Gives the glyphs from `s` to `e`, which are a cluster, the same flags.
#[inline]
fn share_flags_from(wanted: BufferFlags, glyphs: &mut [GlyphInfo], s: usize, e: usize) {
    share_flags(wanted, &mut glyphs[s..e]);
}

// Gives the glyphs of a cluster the same flags.
#[inline]
fn share_flags(wanted: BufferFlags, cluster: &mut [GlyphInfo]) {
    if cluster.len() == 1 {
        let flags = flags_wanted(wanted, cluster[0].mask & 7);
        put_flags(&mut cluster[0], flags);
        return;
    }
    let flags = flags_wanted(wanted, flags_of(cluster));
    set_flags(cluster, flags);
}

// The flags that one of these glyphs has.
#[inline]
fn flags_of(cluster: &[GlyphInfo]) -> u32 {
    let mut flags = 0;
    for glyph in cluster {
        flags |= glyph.mask & 7;
    }
    flags
}

// The flags of a cluster that the buffer wants.
#[inline]
fn flags_wanted(wanted: BufferFlags, flags: u32) -> u32 {
    let settled = if wanted.contains(BufferFlags::PRODUCE_SAFE_TO_INSERT_TATWEEL) {
        joins_decided(flags)
    } else {
        flags
    };
    if wanted.contains(BufferFlags::PRODUCE_UNSAFE_TO_CONCAT) {
        settled
    } else {
        settled & (UNSAFE_TO_BREAK | SAFE_TO_INSERT_TATWEEL)
    }
}

// These flags where tatweels are wanted: one put in breaks the line's shape, unless that is shaped
// anew.
#[inline]
fn joins_decided(flags: u32) -> u32 {
    if flags & UNSAFE_TO_BREAK == UNSAFE_TO_BREAK {
        flags & (UNSAFE_TO_BREAK | UNSAFE_TO_CONCAT)
    } else if flags & SAFE_TO_INSERT_TATWEEL == SAFE_TO_INSERT_TATWEEL {
        flags | (UNSAFE_TO_BREAK | UNSAFE_TO_CONCAT)
    } else {
        flags
    }
}

// Puts these flags in the place of each glyph's own.
#[inline]
fn set_flags(cluster: &mut [GlyphInfo], flags: u32) {
    for glyph in cluster.iter_mut() {
        put_flags(glyph, flags);
    }
}

#[inline]
fn put_flags(glyph: &mut GlyphInfo, flags: u32) {
    glyph.mask &= !7;
    glyph.mask |= flags;
}
