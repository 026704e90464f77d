// Generated from crates/shapers_editing/src/edits.rt by rust/erase; edit the source.

//! What is shaped again where a stretch of a text is replaced.

use crate::support::prelude::*;

use crate::generated::shapers_buffer::buffer::{GlyphInfo, ShaperError, Span};
use crate::generated::shapers_spans::{Machine, spans_of};
use crate::support::alloc::Global;

/// An edit of a text: glyphs in the place of a stretch of it.
#[derive(Clone, Copy, Debug)]
pub struct Edit<'a> {
    /// Where the stretch that goes begins.
    pub start: usize,
    /// Where it ends: at most the text's length, and no less than `start`.
    pub end: usize,
    /// The glyphs in its place.
    pub glyphs: &'a [GlyphInfo],
}

/// What an edit leaves of a text of syllables: the glyphs in front and behind that come out as
/// before. What lies between them, of the old text and of the new, is what is shaped again.
#[derive(Clone, Copy, Debug, PartialEq, Eq, Hash)]
pub struct Unaffected {
    /// How many glyphs in front.
    pub front: usize,
    /// How many glyphs behind.
    pub back: usize,
}

/// Which glyphs of a text an edit affects, where the machine of a grammar finds its syllables: those
/// between what this returns. Glyphs have the categories that set-up gives them.
///
/// The syllables that meet the edit aren't enough, since a grammar reads on through joiners: of
/// Khmer `1780 200C` are two syllables, and with `17B7` behind them one.
///
/// # Errors
///
/// [`Memory`].
///
/// # Panics
///
/// If the stretch begins or ends behind the text.
///
/// <details><summary>Contract</summary>
///
/// # Contract
///
/// ```text
/// requires in_order { edit.now.start ≤ edit.now.end }
/// requires in_range { edit.now.end ≤ length text.now }
/// ensures left { let g = M.grammar machine.now in
///     IfOk result (λ left. IsUnaffected g text.now edit.now left) }
/// ensures refusal { IsOkUnless result Memory }
/// ```
///
/// - `IsUnaffected`: `crates/shapers_editing/specs/EditedTexts.antt`
///
/// </details>
///
/// [`Memory`]: crate::ShaperError::Memory
pub fn affected<M: Machine>(
    machine: &M,
    text: &[GlyphInfo],
    edit: &Edit,
    alloc: Global,
) -> Result<Unaffected, ShaperError> {
    let old = spans_of(machine, text, alloc)?;
    let glyphs = edited_text(text, edit, alloc)?;
    let new = spans_of(machine, glyphs.as_slice(), alloc)?;
    let back = text.len() - edit.end;
    Ok(affected_spans(
        old.as_slice(),
        new.as_slice(),
        edit.start,
        back,
    ))
}

// The text with the edit.
fn edited_text(
    text: &[GlyphInfo],
    edit: &Edit,
    alloc: Global,
) -> Result<Vec<GlyphInfo>, ShaperError> {
    let mut glyphs = Vec::new(alloc);
    glyphs.extend_from_slice(&text[..edit.start])?;
    glyphs.extend_from_slice(edit.glyphs)?;
    glyphs.extend_from_slice(&text[edit.end..])?;
    Ok(glyphs)
}

/// The same by the spans of the text before and after the edit, for a caller who has them; `front`
/// glyphs stand in front of what was replaced and `back` behind it, the same in both texts, so
/// together no more than either has.
///
/// <details><summary>Contract</summary>
///
/// # Contract
///
/// ```text
/// ensures front { result.front ≡ glyphs_in (shared front old.now new.now) }
/// ensures back { result.back ≡ glyphs_in (shared back (reverse old.now) (reverse new.now)) }
/// ```
///
/// - `glyphs_in`, `shared`: `crates/shapers_editing/specs/Affected.antt`
///
/// </details>
pub fn affected_spans(old: &[Span], new: &[Span], front: usize, back: usize) -> Unaffected {
    Unaffected {
        front: shared_len(old, new, front, false),
        back: shared_len(old, new, back, true),
    }
}

// How many glyphs the spans cover that the lists share, at their starts or at their ends, as long
// as that is at most `room`.
fn shared_len(old: &[Span], new: &[Span], room: usize, from_end: bool) -> usize {
    let mut left = room;
    for k in 0..old.len().min(new.len()) {
        let span = span_at(old, k, from_end);
        let other = span_at(new, k, from_end);
        if span.len != other.len || span.kind != other.kind || span.len > left {
            return room - left;
        }
        left -= span.len;
    }
    room - left
}

// The span at a place, counted from the start or from the end.
fn span_at(spans: &[Span], k: usize, from_end: bool) -> Span {
    if from_end {
        spans[spans.len() - 1 - k]
    } else {
        spans[k]
    }
}
