// Generated from crates/shapers_normal/src/ot_shape_normalize/recomposing.rt by rust/erase; edit the source.

//! The third round: a letter and the marks behind it compose, as far as the font has what comes of
//! it.

use super::context::NormalizeContext;
use super::properties::set_character;
use super::sorting::{class, is_mark, merges};
use crate::generated::shapers_base::buffer::{
    BufferClusterLevel, GlyphInfo, IntoCluster, change_each_in, merge_clusters_in,
};
use crate::generated::shapers_base::font::GlyphId;

/// Composes each starter with the marks behind it that nothing keeps apart from it, as far as the
/// shaper composes them and the font has the character. A mark that is taken in comes into one
/// cluster with its starter. Returns how many glyphs are left, at the front; it takes no memory.
/// (Unicode's Canonical Composition Algorithm.)
///
/// <details><summary>Contract</summary>
///
/// # Contract
///
/// ```text
/// ensures text { take result glyphs.new ≡ recomposed (C.context context.now) level glyphs.old }
/// ensures within { result ≤ length glyphs.old }
/// ```
///
/// - `recomposed`: `crates/shapers_normal/specs/Recomposition.antt`
///
/// </details>
pub fn recompose_in<C: NormalizeContext>(
    context: &C,
    level: BufferClusterLevel,
    glyphs: &mut [GlyphInfo],
) -> usize {
    if glyphs.is_empty() {
        return 0;
    }
    let mut place = Place {
        starter: 0,
        to: 1,
        from: 1,
    };
    while place.from < glyphs.len() {
        place = step(context, level, glyphs, place);
    }
    place.to
}

// The glyph at `from` composes with the starter, or else stays.
#[inline]
fn step<C: NormalizeContext>(
    context: &C,
    level: BufferClusterLevel,
    glyphs: &mut [GlyphInfo],
    place: Place,
) -> Place {
    match composition_at(context, glyphs, place) {
        Some((c, glyph)) => take_in(context, level, glyphs, place, (c, glyph)),
        None => pass_by(glyphs, place),
    }
}

// What the starter and the mark at `from` compose to, with its glyph.
#[inline]
fn composition_at<C: NormalizeContext>(
    context: &C,
    glyphs: &[GlyphInfo],
    place: Place,
) -> Option<(u32, GlyphId)> {
    let mark = &glyphs[place.from];
    if is_mark(mark) && is_free(glyphs, place) {
        compose(context, glyphs[place.starter].glyph_id, mark.glyph_id)
    } else {
        None
    }
}

// Whether nothing keeps the mark at `from` apart from the starter: of two marks of one class the
// first blocks the second.
#[inline]
fn is_free(glyphs: &[GlyphInfo], place: Place) -> bool {
    place.starter + 1 == place.to || class(&glyphs[place.to - 1]) < class(&glyphs[place.from])
}

// What two characters compose to, with its glyph, if the font has one.
#[inline]
fn compose<C: NormalizeContext>(context: &C, a: u32, b: u32) -> Option<(u32, GlyphId)> {
    let c = context.compose(a, b)?;
    let glyph = context.nominal_glyph(c)?;
    Some((c, glyph))
}

// Takes the mark at `from` into the starter, which becomes this character.
#[inline]
fn take_in<C: NormalizeContext>(
    context: &C,
    level: BufferClusterLevel,
    glyphs: &mut [GlyphInfo],
    place: Place,
    drawn: (u32, GlyphId),
) -> Place {
    merge_apart(level, glyphs, place);
    set_character(context, &mut glyphs[place.starter], drawn.0, drawn.1.0);
    Place {
        from: place.from + 1,
        ..place
    }
}

// Leaves the glyph at `from` as it is.
#[inline]
fn pass_by(glyphs: &mut [GlyphInfo], place: Place) -> Place {
    let starter = if class(&glyphs[place.from]) == 0 {
        place.to
    } else {
        place.starter
    };
    glyphs[place.to] = glyphs[place.from];
    Place {
        starter,
        to: place.to + 1,
        from: place.from + 1,
    }
}

// Merges the clusters from the starter to the mark at `from`, which goes.
#[inline]
fn merge_apart(level: BufferClusterLevel, glyphs: &mut [GlyphInfo], place: Place) {
    glyphs[place.to] = glyphs[place.from];
    let (front, behind) = glyphs.split_at_mut(place.from + 1);
    merge_joined(level, &mut front[..place.to + 1], place.starter, behind);
}

// Merges the clusters from `s` to the end of the first slice, as if the other one stood behind it.
#[inline]
fn merge_joined(
    level: BufferClusterLevel,
    front: &mut [GlyphInfo],
    s: usize,
    behind: &mut [GlyphInfo],
) {
    if merges(level) {
        let end = front.len();
        let last = front[end - 1].cluster;
        merge_clusters_in(level, front, s, end);
        flood_behind(behind, last, front[s].cluster);
    }
}

// Puts the glyphs of cluster `from` that begin the list into cluster `to`.
#[inline]
fn flood_behind(glyphs: &mut [GlyphInfo], from: u32, to: u32) {
    let count = count_in(glyphs, from);
    change_each_in(&mut glyphs[..count], &IntoCluster(to));
}

// How many glyphs of a cluster begin the list.
#[inline]
fn count_in(glyphs: &[GlyphInfo], cluster: u32) -> usize {
    glyphs
        .iter()
        .take_while(|glyph| glyph.cluster == cluster)
        .count()
}

// A walk that takes glyphs out: what stays lies before `to`, what is still to come from `from` on,
// and what lies between has been taken in.
#[derive(Clone, Copy)]
struct Place {
    starter: usize,
    to: usize,
    from: usize,
}
