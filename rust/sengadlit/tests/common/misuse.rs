//! Calls drawn by lot for which anything may be wrong.

use super::buffers::{Glyphs, random_buffer, random_spans, set_random_positions};
use super::calls::{Call, Setting};
use super::fonts::{LotFont, LotTables};
use super::numbers::Numbers;
use super::plans::random_plan;
use super::spoiled::spoil;
use sengadlit::buffer::{Buffer, Span};
use sengadlit::plan::Plan;
use sengadlit::shaper::Shaper;

/// A call for which anything may be wrong: the plan may be of another shaper, positions absent or
/// there, places outside, and kinds of spans above 15.
pub struct Misuse {
    pub call: Call,
    pub shaper: Shaper,
    plan: Plan,
    spans: Vec<Span>,
    pub buffer: Buffer,
}

impl Misuse {
    /// A misuse drawn by lot.
    pub fn random(numbers: &mut Numbers, kind: Glyphs) -> Self {
        let shaper = numbers.one_of(&Shaper::ALL);
        let other = numbers.one_of(&Shaper::ALL);
        let last_kind = numbers.one_of(&[15, 15, 15, u8::MAX]);
        let planned = if numbers.once_in(3) { other } else { shaper };
        let mut buffer = random_buffer(numbers, kind);
        if numbers.once_in(3) {
            set_random_positions(numbers, &mut buffer);
        }
        if kind == Glyphs::Spoiled {
            spoil(numbers, &mut buffer);
        }
        Misuse {
            call: random_call(numbers, buffer.len()),
            shaper,
            plan: random_plan(numbers, planned),
            spans: random_spans(numbers, buffer.len(), last_kind),
            buffer,
        }
    }

    /// What the call is made with, but for the buffer.
    pub fn setting<'a, L>(
        &'a self,
        font: &'a LotFont<L>,
        tables: &'a LotTables<L>,
    ) -> Setting<'a, LotFont<L>, LotTables<L>> {
        Setting {
            shaper: self.shaper,
            plan: &self.plan,
            font,
            tables,
            spans: &self.spans,
        }
    }
}

/// A call for a buffer of so many glyphs whose places may lie outside.
fn random_call(numbers: &mut Numbers, length: usize) -> Call {
    let ends = [0, 1, length, length + 1, 33, usize::MAX];
    match Call::random(numbers, length) {
        Call::Marks(..) if numbers.once_in(2) => {
            Call::Marks(numbers.one_of(&ends), numbers.one_of(&ends))
        }
        call => call,
    }
}
