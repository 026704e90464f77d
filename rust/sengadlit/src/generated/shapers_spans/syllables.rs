// Generated from crates/shapers_spans/src/syllables.rt by rust/erase; edit the source.

//! The syllables of a text, written into its glyphs.

use crate::generated::shapers_base::buffer::{Buffer, GlyphInfo, GlyphWalk, set_syllable};
use crate::generated::shapers_spans::finding::{Joiners, first_span};
use crate::generated::shapers_spans::machine::Machine;

/// Finds the syllables of the buffer's text, by a machine, and gives each glyph the byte of its own.
/// It takes no memory.
///
/// <details><summary>Contract</summary>
///
/// # Contract
///
/// ```text
/// ensures found { AreInSyllables (M.grammar machine.now) buffer.old.glyphs buffer.new.glyphs }
/// ensures others { buffer.new ≡ record buffer.old { glyphs = buffer.new.glyphs } }
/// ```
///
/// - `AreInSyllables`: `crates/shapers_spans/specs/Written.antt`
///
/// </details>
#[inline]
pub fn find_syllables_in<M: Machine>(machine: &M, buffer: &mut Buffer) {
    buffer.walk(&mut FindSyllables { machine });
}

// The walk that finds syllables.
#[derive(Clone, Copy)]
struct FindSyllables<'a, M: Machine> {
    machine: &'a M,
}

impl<'a, M: Machine> GlyphWalk for FindSyllables<'a, M> {
    #[inline]
    fn walk(&mut self, glyphs: &mut [GlyphInfo]) {
        find_syllables(self.machine, glyphs);
    }
}

// How many spans what is passed over in front makes.
#[inline]
fn lead_count(lead: usize) -> usize {
    if lead == 0 { 0 } else { 1 }
}

// Gives the glyphs from `start` to `end` the byte of a span of this kind, behind so many spans.
#[inline]
fn write_span(glyphs: &mut [GlyphInfo], start: usize, end: usize, spans: usize, kind: u8) {
    let serial = (spans % 15 + 1) as u8;
    set_syllable(&mut glyphs[start..end], serial * 16 + kind);
}

/// Finds the syllables of the glyphs, by a machine, and gives each glyph the byte of its own. It
/// takes no memory.
///
/// <details><summary>Contract</summary>
///
/// # Contract
///
/// ```text
/// ensures { AreInSyllables (M.grammar machine.now) glyphs.old glyphs.new }
/// ```
///
/// - `AreInSyllables`: `crates/shapers_spans/specs/Written.antt`
///
/// </details>
pub fn find_syllables<M: Machine>(machine: &M, glyphs: &mut [GlyphInfo]) {
    let mut start = machine.next_read(glyphs, 0);
    write_span(glyphs, 0, start, 0, machine.other());
    let mut spans = lead_count(start);
    let mut joiners = Joiners::none();
    while start < glyphs.len() {
        let span = first_span(machine, &glyphs[start..], start, &mut joiners);
        let end = start + span.len;
        write_span(glyphs, start, end, spans, span.kind);
        start = end;
        spans += 1;
    }
}
