//! Calls drawn by lot, with all that they are made with.

use super::buffers::{
    Contents, Glyphs, copy_of, random_buffer, random_spans, set_random_positions,
};
use super::calls::{Call, Returned, Setting};
use super::fonts::{LotFont, LotTables, Steady};
use super::numbers::Numbers;
use super::plans::random_plan;
use sengadlit::buffer::{Buffer, ShaperError, Span};
use sengadlit::plan::Plan;
use sengadlit::shaper::Shaper;

/// A call, and all that it is made with.
pub struct Scene {
    pub call: Call,
    pub shaper: Shaper,
    pub buffer: Buffer,
    plan: Plan,
    font: LotFont<Steady>,
    tables: LotTables<Steady>,
    spans: Vec<Span>,
}

impl Scene {
    /// The scene of a seed.
    pub fn random(seed: u64, kind: Glyphs) -> Self {
        let numbers = &mut Numbers::new(seed);
        let shaper = numbers.one_of(&Shaper::ALL);
        let mut buffer = random_buffer(numbers, kind);
        let call = Call::random(numbers, buffer.len());
        if call.wants_positions() {
            set_random_positions(numbers, &mut buffer);
        }
        Scene {
            call,
            shaper,
            plan: random_plan(numbers, shaper),
            font: LotFont(Steady(numbers.draw())),
            tables: LotTables(Steady(numbers.draw())),
            spans: random_spans(numbers, buffer.len(), 15),
            buffer,
        }
    }

    /// What the call is made with, but for the buffer.
    pub fn setting(&self) -> Setting<'_, LotFont<Steady>, LotTables<Steady>> {
        Setting {
            shaper: self.shaper,
            plan: &self.plan,
            font: &self.font,
            tables: &self.tables,
            spans: &self.spans,
        }
    }

    /// Whether the call's conditions hold.
    pub fn fits(&self) -> bool {
        self.call.fits(&self.setting(), &self.buffer)
    }

    /// Makes the call on a copy: what it returned, and what the buffer holds then. A call that
    /// refuses must have left the buffer as it was.
    pub fn play(&self) -> (Result<Returned, ShaperError>, Contents) {
        let mut buffer = copy_of(&self.buffer);
        let before = Contents::of(&buffer);
        let returned = self.call.make(&self.setting(), &mut buffer);
        if returned.is_err() {
            assert_eq!(Contents::of(&buffer), before, "{:?}", self.call);
        }
        (returned, Contents::of(&buffer))
    }

    /// Whether the call may put one glyph in the place of several.
    pub fn may_compose(&self) -> bool {
        self.call == Call::Preprocess && self.shaper == Shaper::Hangul
    }
}
