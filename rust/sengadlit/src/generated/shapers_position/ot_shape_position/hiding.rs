// Generated from crates/shapers_position/src/ot_shape_position/hiding.rt by rust/erase; edit the source.

//! Ignorable glyphs that are drawn by an invisible one, or go.

use super::ignorables::{DefaultIgnorables, has_ignorable, is_default_ignorable};
use crate::generated::shapers_base::buffer::{
    Buffer, BufferClusterLevel, GlyphInfo, GlyphPosition, PositionedWalk, merge_clusters_in,
};
use crate::generated::shapers_base::font::{Font, GlyphId};

// The character whose glyph draws nothing.
const SPACE: u32 = 0x20;

/// Draws each glyph that is to be hidden by an invisible one: the caller's, or else the font's
/// space. In a font without one, and where they are to go, they go with their positions, and a
/// glyph beside them takes in their cluster, so that the text of each is still some glyph's.
/// (HarfBuzz's `hb_ot_hide_default_ignorables` and `delete_glyphs_inplace`.)
///
/// <details><summary>Contract</summary>
///
/// # Contract
///
/// ```text
/// ensures { let glyph = option_or invisible_glyph ((F.font font.now).nominal 0x20) in
///     buffer.new ≡ ignorables_hidden ignorables glyph buffer.old }
/// ```
///
/// - `ignorables_hidden`: `crates/shapers_position/specs/Ignorables.antt`
///
/// </details>
pub fn hide_default_ignorables<F: Font>(
    ignorables: DefaultIgnorables,
    invisible_glyph: Option<GlyphId>,
    font: &F,
    buffer: &mut Buffer,
) {
    if !has_ignorable(buffer.glyphs()) {
        return;
    }
    match ignorables {
        DefaultIgnorables::Hide => match invisible_glyph.or_else(|| font.nominal_glyph(SPACE)) {
            Some(glyph) => draw_by(glyph, buffer),
            None => remove_ignorables(buffer),
        },
        DefaultIgnorables::Preserve => {}
        DefaultIgnorables::Remove => remove_ignorables(buffer),
    }
}

// Draws each ignorable glyph by this one.
fn draw_by(glyph: GlyphId, buffer: &mut Buffer) {
    buffer.change_all_by(|info| {
        if is_default_ignorable(info) {
            info.glyph_id = u32::from(glyph.0);
        }
    });
}

// Takes the ignorable glyphs out of a text, with their positions.
fn remove_ignorables(buffer: &mut Buffer) {
    let kept = count_kept(buffer.glyphs());
    let level = buffer.cluster_level();
    if buffer.positions_len() > 0 {
        buffer.walk_positioned(&PositionRemoval {});
    }
    buffer.with_glyphs_mut(|glyphs| remove_ignorables_in(level, glyphs));
    buffer.truncate(kept);
}

// How many glyphs stay.
fn count_kept(glyphs: &[GlyphInfo]) -> usize {
    glyphs
        .iter()
        .filter(|glyph| !is_default_ignorable(glyph))
        .count()
}

// The walk that brings the positions of the glyphs that stay to the front.
struct PositionRemoval {}

impl PositionedWalk for PositionRemoval {
    #[inline]
    fn walk(&self, glyphs: &mut [GlyphInfo], positions: &mut [GlyphPosition]) {
        remove_positions(glyphs, positions);
    }
}

// Brings the positions of the glyphs that stay to the front.
fn remove_positions(glyphs: &[GlyphInfo], positions: &mut [GlyphPosition]) {
    let mut kept = 0;
    for i in 0..glyphs.len() {
        if !is_default_ignorable(&glyphs[i]) {
            positions[kept] = positions[i];
            kept += 1;
        }
    }
}

// Brings the glyphs that stay to the front, in the clusters of those that go.
#[inline]
fn remove_ignorables_in(level: BufferClusterLevel, glyphs: &mut [GlyphInfo]) {
    merge_leading(level, glyphs);
    remove_glyphs(glyphs);
}

// Merges the ignorable glyphs that begin a text with the first one that stays.
fn merge_leading(level: BufferClusterLevel, glyphs: &mut [GlyphInfo]) {
    let opening = leading_len(glyphs);
    let end = (opening + 1).min(glyphs.len());
    merge_clusters_in(level, glyphs, 0, end);
}

// How many ignorable glyphs begin a text.
#[inline]
fn leading_len(glyphs: &[GlyphInfo]) -> usize {
    glyphs
        .iter()
        .take_while(|glyph| is_default_ignorable(glyph))
        .count()
}

// Brings the glyphs that stay to the front.
fn remove_glyphs(glyphs: &mut [GlyphInfo]) {
    let mut kept = 0;
    for i in 0..glyphs.len() {
        kept = move_or_remove(glyphs, kept, i);
    }
}

// Looks at the glyph at `i`, of those before which the first `kept` stay: it comes behind these, or
// goes. One that goes, and is the last of its cluster there, leaves that to them. How many stay
// then.
fn move_or_remove(glyphs: &mut [GlyphInfo], kept: usize, i: usize) -> usize {
    let glyph = glyphs[i];
    if !is_default_ignorable(&glyph) {
        glyphs[kept] = glyph;
        return kept + 1;
    }
    if !is_of_cluster(&glyphs[i + 1..], glyph.cluster) {
        cover(&mut glyphs[..kept], &glyph);
    }
    kept
}

// Whether the next glyph is of this cluster.
#[inline]
fn is_of_cluster(behind: &[GlyphInfo], cluster: u32) -> bool {
    match behind.first() {
        Some(next) => next.cluster == cluster,
        None => false,
    }
}

// Puts the last glyphs of one cluster into that of a glyph that goes, if that is below theirs.
fn cover(kept: &mut [GlyphInfo], gone: &GlyphInfo) {
    if kept.is_empty() {
        return;
    }
    let cluster = kept[kept.len() - 1].cluster;
    if gone.cluster < cluster {
        let start = kept.len() - len_at_end(kept, cluster);
        take_place_of(gone, &mut kept[start..]);
    }
}

// How many glyphs of a cluster end the list.
#[inline]
fn len_at_end(glyphs: &[GlyphInfo], cluster: u32) -> usize {
    glyphs
        .iter()
        .rev()
        .take_while(|glyph| glyph.cluster == cluster)
        .count()
}

// Gives these glyphs the cluster and the glyph flags of one that goes.
fn take_place_of(gone: &GlyphInfo, glyphs: &mut [GlyphInfo]) {
    for glyph in glyphs.iter_mut() {
        take_in(glyph, gone);
    }
}

// Gives a glyph the cluster and the glyph flags of one that goes.
#[inline]
fn take_in(glyph: &mut GlyphInfo, gone: &GlyphInfo) {
    glyph.cluster = gone.cluster;
    glyph.mask &= !7;
    glyph.mask |= gone.mask & 7;
}
