// Generated from crates/shapers_spans/src/spans.rt by rust/erase; edit the source.

//! The syllables of a text, as a list.

use crate::support::prelude::*;

use crate::generated::shapers_base::buffer::{GlyphInfo, ShaperError, Span};
use crate::generated::shapers_spans::finding::{Joiners, first_span};
use crate::generated::shapers_spans::machine::Machine;
use crate::support::alloc::Global;

/// The syllables of the glyphs, by a machine. They cover the glyphs, and their kinds fit a syllable
/// byte. The only refusal is [`Memory`].
///
/// # Errors
///
/// [`Memory`].
///
/// <details><summary>Contract</summary>
///
/// # Contract
///
/// ```text
/// ensures spans { IfOk result
///     (λ spans. AreSpansOf (M.grammar machine.now) glyphs.now spans.items) }
/// ensures refusal { IsOkUnless result Memory }
/// ```
///
/// - `AreSpansOf`: `crates/shapers_spans/specs/Cuts.antt`
///
/// </details>
///
/// [`Memory`]: crate::ShaperError::Memory
pub fn spans_of<M: Machine>(
    machine: &M,
    glyphs: &[GlyphInfo],
    alloc: Global,
) -> Result<Vec<Span>, ShaperError> {
    let mut spans = Vec::new(alloc);
    spans_into(machine, glyphs, &mut spans)?;
    Ok(spans)
}

// The glyphs that are passed over in front, as a span of their own.
#[inline]
fn push_lead(lead: usize, kind: u8, spans: &mut Vec<Span>) -> Result<(), ShaperError> {
    if lead == 0 {
        return Ok(());
    }
    spans
        .push(Span { len: lead, kind })
        .map_err(|_| ShaperError::Memory)
}

/// Fills the list with the syllables of the glyphs, by a machine. A list that has room for them
/// takes no memory. The only refusal is [`Memory`].
///
/// # Errors
///
/// [`Memory`]; the list then holds the syllables that it had room for.
///
/// <details><summary>Contract</summary>
///
/// # Contract
///
/// ```text
/// ensures spans { OnOk result (AreSpansOf (M.grammar machine.now) glyphs.now spans.new.items) }
/// ensures refusal { IsOkUnless result Memory }
/// ensures room { (all : List Span) → AreSpansOf (M.grammar machine.now) glyphs.now all →
///     length all ≤ vec_capacity spans.old → IsOk result }
/// ```
///
/// - `AreSpansOf`: `crates/shapers_spans/specs/Cuts.antt`
///
/// </details>
///
/// [`Memory`]: crate::ShaperError::Memory
pub fn spans_into<M: Machine>(
    machine: &M,
    glyphs: &[GlyphInfo],
    spans: &mut Vec<Span>,
) -> Result<(), ShaperError> {
    spans.clear();
    let mut start = machine.next_read(glyphs, 0);
    push_lead(start, machine.other(), spans)?;
    let mut joiners = Joiners::none();
    while start < glyphs.len() {
        let span = first_span(machine, &glyphs[start..], start, &mut joiners);
        spans.push(span).map_err(|_| ShaperError::Memory)?;
        start += span.len;
    }
    Ok(())
}
