// Generated from crates/shapers_syllabic/src/ot_shaper_syllabic/setup.rt by rust/erase; edit the source.

//! Cutting a text into syllables.

use crate::generated::shapers_base::buffer::glyph_flag::{UNSAFE_TO_BREAK, UNSAFE_TO_CONCAT};
use crate::generated::shapers_base::buffer::{
    Buffer, GlyphInfo, ShaperError, Span, first_syllable_len, has_span_of_kind, least_cluster,
    spans_cover, unsafe_to_break_in,
};

/// Cuts the text into the syllables of these spans, marks whether one is of the broken kind, and
/// flags the inside of each syllable as unsafe to break. Refuses with [`SpansDontCover`] where a span
/// is empty or the lengths don't add up to the buffer's. It takes no memory and leaves the clusters
/// as they are.
///
/// <details><summary>Contract</summary>
///
/// # Contract
///
/// ```text
/// requires { All (λ span. span.kind ≤ 15) spans.now }
/// ensures refusal { RefusesInput (spans_refusal spans.now buffer.old) result }
/// ensures ok { let cut = with_spans spans.now broken_kind buffer.old in
///     OnOk result (buffer.new ≡ with_unsafe_syllables cut) }
/// ensures cut { OnOk result
///     (SetupCutsAtSpans spans.now broken_kind buffer.old buffer.new) }
/// ensures clusters { clusters buffer.new.glyphs ≡ clusters buffer.old.glyphs }
/// ensures err { OnErr result (buffer.new ≡ buffer.old) }
/// ```
///
/// - `clusters`: `crates/shapers_buffer/specs/Glyph.antt`
/// - `RefusesInput`: `crates/shapers_buffer/specs/Refusals.antt`
/// - `spans_refusal`, `with_spans`: `crates/shapers_buffer/specs/Syllables.antt`
/// - `SetupCutsAtSpans`: `crates/shapers_syllabic/specs/Borders.antt`
/// - `with_unsafe_syllables`: `crates/shapers_syllabic/specs/Syllabic.antt`
///
/// </details>
///
/// [`SpansDontCover`]: crate::ShaperError::SpansDontCover
#[inline]
pub fn setup_syllables(
    spans: &[Span],
    broken_kind: u8,
    buffer: &mut Buffer,
) -> Result<(), ShaperError> {
    if !spans_cover(buffer.len(), spans) {
        return Err(ShaperError::SpansDontCover);
    }
    buffer.with_glyphs_mut(|glyphs| setup_spans(glyphs, spans));
    if has_span_of_kind(spans, broken_kind) {
        buffer.set_has_broken_syllable(true);
    }
    Ok(())
}

/// Sets up a text whose glyphs have their syllable bytes already: flags the inside of each syllable
/// as unsafe to break, and marks whether one is of the broken kind. It takes no memory.
///
/// <details><summary>Contract</summary>
///
/// # Contract
///
/// ```text
/// ensures { buffer.new ≡ setup_by_bytes broken_kind buffer.old }
/// ```
///
/// - `setup_by_bytes`: `crates/shapers_syllabic/specs/Syllabic.antt`
///
/// </details>
#[inline]
pub fn setup_by_bytes(broken_kind: u8, buffer: &mut Buffer) {
    if has_syllable_of_kind(buffer.glyphs(), broken_kind) {
        buffer.set_has_broken_syllable(true);
    }
    buffer.with_glyphs_mut(flag_syllables_in);
}

/// Flags the inside of each syllable of these glyphs as unsafe to break and to concatenate.
///
/// <details><summary>Contract</summary>
///
/// # Contract
///
/// ```text
/// ensures { glyphs.new ≡ unsafe_syllables glyphs.old }
/// ```
///
/// - `unsafe_syllables`: `crates/shapers_syllabic/specs/Syllabic.antt`
///
/// </details>
#[inline]
pub fn flag_syllables_in(glyphs: &mut [GlyphInfo]) {
    let mut start = 0;
    while start < glyphs.len() {
        let end = start + first_syllable_len(&glyphs[start..]);
        unsafe_to_break_in(glyphs, start, end);
        start = end;
    }
}

// Whether some syllable is of this kind.
#[inline]
fn has_syllable_of_kind(glyphs: &[GlyphInfo], kind: u8) -> bool {
    glyphs.iter().any(|glyph| glyph.syllable % 16 == kind)
}

// Gives each place the byte of the span that covers it, and flags the inside of each span.
#[inline]
fn setup_spans(glyphs: &mut [GlyphInfo], spans: &[Span]) {
    let mut start = 0;
    for (i, span) in spans.iter().enumerate() {
        let serial = (i % 15 + 1) as u8;
        let end = start + span.len;
        setup_span_in(glyphs, start, end, serial * 16 + span.kind);
        start = end;
    }
}

// Makes one syllable of the glyphs from `s` to `e`.
#[inline]
fn setup_span_in(glyphs: &mut [GlyphInfo], s: usize, e: usize, byte: u8) {
    setup_span(&mut glyphs[s..e], byte);
}

// Makes one syllable of these glyphs: gives them this byte, and flags its inside.
#[inline]
fn setup_span(glyphs: &mut [GlyphInfo], byte: u8) {
    if glyphs.is_empty() {
        return;
    }
    let least = least_cluster(glyphs);
    setup_each(glyphs, byte, least);
}

// Gives these glyphs this byte, and flags those outside the least cluster.
#[inline]
fn setup_each(glyphs: &mut [GlyphInfo], byte: u8, least: u32) {
    for glyph in glyphs.iter_mut() {
        glyph.syllable = byte;
        if glyph.cluster != least {
            glyph.mask |= UNSAFE_TO_BREAK | UNSAFE_TO_CONCAT;
        }
    }
}
