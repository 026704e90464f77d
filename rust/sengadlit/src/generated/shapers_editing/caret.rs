// Generated from crates/shapers_editing/src/caret.rt by rust/erase; edit the source.

//! Where a caret may stand in a shaped text.

use crate::support::prelude::*;

use crate::generated::shapers_buffer::buffer::{Direction, GlyphInfo, ShaperError};

/// Fills the list with the places of the text where a caret may stand before a glyph: the borders
/// of clusters, in the order of the text. The glyphs are a shaped text, as they are drawn from left
/// to right or from top to bottom, so the clusters of one that goes backward fall along them.
///
/// A caret also stands behind the text. A glyph stands for the text from the last stop that isn't
/// above its cluster up to the next one, or to the text's end. Where clusters don't keep to the
/// order of the text, as the reorderings of Indic may leave them, a cluster is a stop only if all
/// behind it are greater, so that stops always rise.
///
/// A list that has room for the stops takes no memory.
///
/// # Errors
///
/// [`Memory`]; the list is empty then.
///
/// Source: HarfBuzz's manual, "Clusters".
///
/// <details><summary>Contract</summary>
///
/// # Contract
///
/// ```text
/// ensures stops { OnOk result (stops.new.items ≡ caret_stops direction glyphs.now) }
/// ensures refusal { IsOkUnless result Memory }
/// ensures room { length (caret_stops direction glyphs.now) ≤ vec_capacity stops.old → IsOk result }
/// ensures err { OnErr result (stops.new.items ≡ []) }
/// ```
///
/// - `caret_stops`: `crates/shapers_editing/specs/Carets.antt`
///
/// </details>
///
/// [`Memory`]: crate::ShaperError::Memory
pub fn caret_stops(
    glyphs: &[GlyphInfo],
    direction: Direction,
    stops: &mut Vec<u32>,
) -> Result<(), ShaperError> {
    stops.clear();
    let pushed = match direction {
        Direction::RightToLeft | Direction::BottomToTop => push_from_start(glyphs, stops),
        _ => push_from_end(glyphs, stops),
    };
    if pushed.is_err() {
        stops.clear();
    }
    stops.reverse();
    pushed
}

// Pushes the stops of a text whose last glyph is the list's first, the last stop first.
fn push_from_start(glyphs: &[GlyphInfo], stops: &mut Vec<u32>) -> Result<(), ShaperError> {
    for glyph in glyphs {
        push_lesser(glyph.cluster, stops)?;
    }
    Ok(())
}

// Pushes the stops of a text whose last glyph is the list's last, the last stop first.
fn push_from_end(glyphs: &[GlyphInfo], stops: &mut Vec<u32>) -> Result<(), ShaperError> {
    let mut behind = glyphs.len();
    while behind > 0 {
        behind -= 1;
        push_lesser(glyphs[behind].cluster, stops)?;
    }
    Ok(())
}

// Pushes a cluster, if all behind it are greater.
fn push_lesser(cluster: u32, stops: &mut Vec<u32>) -> Result<(), ShaperError> {
    if is_lesser(cluster, stops) {
        stops.push(cluster).map_err(|_| ShaperError::Memory)?;
    }
    Ok(())
}

// Whether all clusters behind this one are greater: the last stop is the least of them.
fn is_lesser(cluster: u32, stops: &[u32]) -> bool {
    match stops.last() {
        Some(least) => cluster < *least,
        None => true,
    }
}
