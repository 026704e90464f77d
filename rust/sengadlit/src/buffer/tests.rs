//! What hooks alone need of the buffer: the list of places, and spans.

use super::{Buffer, GlyphInfo, ShaperError, Span};
use crate::font::NominalOnly;
use crate::plan::{Pause, Plan};
use crate::script;
use crate::shaper::{Shaper, checked::checked_run_pause};
use std::vec::Vec;

fn text_of(characters: &[char]) -> Buffer {
    let glyph = |(i, c): (usize, &char)| GlyphInfo::of_character(*c, i as u32);
    characters.iter().enumerate().map(glyph).collect()
}

/// What is left of the list of places.
fn places(buffer: &Buffer) -> Vec<usize> {
    (0..buffer.len()).map(|i| buffer.place(i)).collect()
}

/// Runs a pause of a shaper whose data the plan has.
fn run(pause: Pause, shaper: Shaper, buffer: &mut Buffer) -> bool {
    let builder = Plan::builder().script(script::MONGOLIAN);
    let plan = builder.build_for(shaper).unwrap();
    let font = NominalOnly(|_| None);
    checked_run_pause(pause, &plan, &font, &[], buffer).is_ok()
}

#[test]
fn a_reordering_leaves_no_place_listed() {
    let reorderings = [
        (Pause::InitialReordering, Shaper::Indic),
        (Pause::FinalReordering, Shaper::Indic),
        (Pause::ReorderKhmer, Shaper::Khmer),
        (Pause::ReorderMyanmar, Shaper::Myanmar),
        (Pause::ReorderUse, Shaper::Universal),
    ];
    for (pause, shaper) in reorderings {
        let mut text = text_of(&['\u{1000}'; 3]);
        text.set_place(1, 2);
        assert!(run(pause, shaper, &mut text), "{pause:?}");
        assert_eq!(places(&text), [0, 0, 0], "{pause:?}");
    }
}

#[test]
fn other_pauses_leave_the_places_that_are_listed() {
    for (pause, shaper) in [
        (Pause::SyllabicClearVar, Shaper::Khmer),
        (Pause::RecordStch, Shaper::Arabic),
        (Pause::RecordRphf, Shaper::Universal),
        (Pause::RecordPref, Shaper::Universal),
    ] {
        let mut text = text_of(&['\u{1000}'; 3]);
        text.set_place(1, 2);
        assert!(run(pause, shaper, &mut text), "{pause:?}");
        assert_eq!(places(&text), [0, 2, 0], "{pause:?}");
    }
}

#[test]
#[should_panic(expected = "range end index")]
fn a_place_beyond_the_buffer_is_none() {
    text_of(&['\u{1000}'; 3]).set_place(1 << 28, 0);
}

#[test]
fn spans_of_a_buffer_may_not_cover_it() {
    let text = text_of(&['\u{1780}', '\u{17D2}']);
    for len in [0, 1, 3, usize::MAX] {
        let mut changed = text.try_clone().unwrap();
        let returned = changed.set_spans(&[Span { len, kind: 1 }], 1);
        assert_eq!(returned, Err(ShaperError::SpansDontCover));
        assert_eq!(changed, text);
    }
    let mut text = text;
    assert_eq!(text.set_spans(&[Span { len: 2, kind: 1 }], 1), Ok(()));
    assert!(text.has_broken_syllable());
}
