// Generated from crates/shapers_prepare/src/ot_shape_prepare/clusters.rt by rust/erase; edit the source.

//! Clusters by graphemes.

use crate::generated::shapers_base::buffer::{
    Buffer, BufferClusterLevel, ClusterRange, GlyphInfo, merge_range_in, unsafe_to_break_in,
    write_range_in,
};

/// Brings each grapheme into one cluster where that is the level, and else flags it unsafe to break
/// inside.
///
/// <details><summary>Contract</summary>
///
/// # Contract
///
/// ```text
/// ensures { let text = clusters_formed buffer.old.level buffer.old.glyphs in
///     buffer.new ≡ record buffer.old { glyphs = text } }
/// ```
///
/// - `clusters_formed`: `crates/shapers_prepare/specs/Graphemes.antt`
///
/// </details>
pub fn form_clusters(buffer: &mut Buffer) {
    if !has_continuation(buffer.glyphs()) {
        return;
    }
    let level = buffer.cluster_level();
    buffer.with_glyphs_mut(|glyphs| form_clusters_in(level, glyphs));
}

// Whether a glyph carries on the grapheme before it: else each is one of its own.
#[inline]
fn has_continuation(glyphs: &[GlyphInfo]) -> bool {
    glyphs
        .iter()
        .any(|glyph| glyph.unicode_props.is_continuation())
}

// Brings each grapheme of these glyphs into one cluster at the level of graphemes, and else flags it.
#[inline]
fn form_clusters_in(level: BufferClusterLevel, glyphs: &mut [GlyphInfo]) {
    match level {
        BufferClusterLevel::MonotoneGraphemes => merge_graphemes_in(level, glyphs),
        BufferClusterLevel::MonotoneCharacters | BufferClusterLevel::Characters => {
            flag_graphemes_in(glyphs)
        }
    }
}

// Merges each grapheme. What merges have put into one cluster is written once.
pub(super) fn merge_graphemes_in(level: BufferClusterLevel, glyphs: &mut [GlyphInfo]) {
    if glyphs.is_empty() {
        return;
    }
    let mut pending = ClusterRange::NONE;
    let mut start = 0;
    for i in 1..glyphs.len() {
        if !glyphs[i].unicode_props.is_continuation() {
            pending = merge_range_in(level, glyphs, pending, start, i);
            start = i;
        }
    }
    let end = glyphs.len();
    pending = merge_range_in(level, glyphs, pending, start, end);
    write_range_in(glyphs, pending);
}

// Flags each grapheme unsafe to break inside.
fn flag_graphemes_in(glyphs: &mut [GlyphInfo]) {
    if glyphs.is_empty() {
        return;
    }
    let mut start = 0;
    for i in 1..glyphs.len() {
        if !glyphs[i].unicode_props.is_continuation() {
            unsafe_to_break_in(glyphs, start, i);
            start = i;
        }
    }
    let end = glyphs.len();
    unsafe_to_break_in(glyphs, start, end);
}
