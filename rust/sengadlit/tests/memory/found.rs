//! Trials of the calls that find syllables, and of those that fill a buffer with a text.

use crate::common::buffers::{buffer_of, letter};
use crate::trial::{Call, Subject, Trial};
use sengadlit::alloc::{Global, Vec as List};
use sengadlit::buffer::{Buffer, GlyphInfo, Script};
use sengadlit::plan::{Pause, Plan};
use sengadlit::shaper::Shaper;
use sengadlit::spans::setup_syllables_found;
use sengadlit::unicode::UnicodeTables;
use std::cell::RefCell;

/// The shapers with a grammar, each with the pause that sets its syllables up and a script.
const WITH_SYLLABLES: [(Shaper, Pause, &[u8; 4]); 4] = [
    (Shaper::Indic, Pause::SetupSyllablesIndic, b"Deva"),
    (Shaper::Khmer, Pause::SetupSyllablesKhmer, b"Khmr"),
    (Shaper::Myanmar, Pause::SetupSyllablesMyanmar, b"Mymr"),
    (Shaper::Universal, Pause::SetupSyllablesUse, b"Java"),
];

// Consonants, each a syllable.
fn text(length: usize) -> Buffer {
    let glyph = |i| GlyphInfo {
        category: 1,
        ..letter(0x915, i)
    };
    buffer_of(&(0..length as u32).map(glyph).collect::<Vec<_>>(), 100_000)
}

fn trial(name: String, may_refuse: bool, length: usize, call: Box<Call>) -> Trial {
    Trial {
        name: format!("{name} with {length} glyphs"),
        may_refuse,
        subject: Subject::Buffer(text(length)),
        call,
    }
}

/// A list of spans, and a buffer of a text.
pub fn growing(length: usize) -> Vec<Trial> {
    let listing = |(shaper, ..): (Shaper, Pause, &[u8; 4])| {
        let call = move |subject: &mut Subject| shaper.spans_of(subject.buffer()).map(drop);
        trial(format!("spans_of {shaper:?}"), true, length, Box::new(call))
    };
    let mut trials: Vec<_> = WITH_SYLLABLES.into_iter().map(listing).collect();
    let characters = "\u{915}".repeat(length);
    let call = move |subject: &mut Subject| {
        *subject.buffer() = Buffer::from_text(&characters, &UnicodeTables)?;
        Ok(())
    };
    trials.push(trial("from_text".into(), true, length, Box::new(call)));
    trials
}

/// A list that has room, and syllables set up as they are found.
pub fn standing(length: usize) -> Vec<Trial> {
    let mut trials = Vec::new();
    for (shaper, pause, script) in WITH_SYLLABLES {
        let list = RefCell::new(List::with_capacity(Global, length).unwrap());
        let call = move |subject: &mut Subject| {
            shaper.spans_into(subject.buffer(), &mut list.borrow_mut())
        };
        trials.push(trial(
            format!("spans_into {shaper:?}"),
            false,
            length,
            Box::new(call),
        ));
        let plan = Plan::builder().script(Script(*script));
        let plan = plan.build_for(shaper).unwrap();
        let call = move |subject: &mut Subject| {
            assert!(setup_syllables_found(pause, &plan, subject.buffer()));
            Ok(())
        };
        trials.push(trial(
            format!("set-up found, {shaper:?}"),
            false,
            length,
            Box::new(call),
        ));
    }
    trials
}
