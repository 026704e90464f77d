// Generated from crates/shapers_spans/src/finding.rt by rust/erase; edit the source.

//! Finding the syllable that begins a text.

use crate::generated::shapers_base::buffer::{GlyphInfo, Span};
use crate::generated::shapers_spans::machine::Machine;

// What is known of the joiners that stand together in a text.
//
// The machine may cycle in one state for as long as joiners stand there, and end nothing behind them:
// then each of them begins a syllable of its own. So that none of these walks goes over the joiners
// again, it is known where they end; and so that none reads again what stands behind them, a state
// from which nothing ends there.
#[derive(Clone, Copy)]
pub(crate) struct Joiners {
    // the place behind them: from where the walk begins up to there, what is read are joiners
    end: usize,
    // nothing ends from this state behind them
    stuck: u8,
}

impl Joiners {
    // None.
    #[inline]
    pub(crate) fn none() -> Self {
        Joiners { end: 0, stuck: 0 }
    }

    // Where a walk from `start` goes on that cycles in a state with `n` glyphs behind it: behind the
    // joiners; nowhere, if nothing ends from that state behind them.
    //
    // Few texts cycle, and inlined this would slow down the others.
    #[inline(never)]
    fn behind(&mut self, start: usize, n: usize, state: u8) -> Option<usize> {
        let here = start + n;
        if here <= self.end && state == self.stuck {
            return None;
        }
        let end = here.max(self.end);
        *self = Joiners { end, stuck: state };
        Some(end - start)
    }
}

// Where the walk goes on in a state in which nothing ends: behind the joiners that are known, if
// the state cycles; and nowhere, if nothing ends behind them either.
#[inline]
fn behind_joiners<M: Machine>(
    machine: &M,
    state: u8,
    start: usize,
    n: usize,
    joiners: &mut Joiners,
) -> Option<usize> {
    if !machine.cycles(state) {
        return Some(n);
    }
    joiners.behind(start, n, state)
}

// The syllable that begins what is left of a text at `start`. A state that joiners don't leave goes
// on behind the sequence of them that is known, so that a sequence is read once and not again for
// each of its glyphs; and a state from which nothing ends behind the sequence goes no further.
#[inline]
pub(crate) fn first_span<M: Machine>(
    machine: &M,
    glyphs: &[GlyphInfo],
    start: usize,
    joiners: &mut Joiners,
) -> Span {
    let mut span = Span {
        len: machine.next_read(glyphs, 1),
        kind: machine.other(),
    };
    let mut state = machine.start();
    let mut n = 0;
    while n < glyphs.len() {
        state = machine.next(state, glyphs[n].category);
        if machine.is_dead(state) {
            return span;
        }
        n = machine.next_read(glyphs, n + 1);
        match machine.kind(state) {
            Some(kind) => span = Span { len: n, kind },
            None => match behind_joiners(machine, state, start, n, joiners) {
                Some(place) => n = place,
                None => return span,
            },
        }
    }
    span
}
