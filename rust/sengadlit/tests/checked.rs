//! The checked calls: each names the first condition that fails, changes nothing then, never
//! panics, and otherwise does what the call that isn't checked does.

mod common;

use common::buffers::{Contents, Glyphs, copy_of, letter, set_advances, text_of};
use common::calls::{Call, Returned, Setting};
use common::fonts::{LotFont, LotTables, PlainFont, PlainTables, Steady};
use common::misuse::Misuse;
use common::numbers::Numbers;
use common::plans::{PAUSES, bare_plan, plan_of};
use common::spoiled::Wrong;
use common::watchdog::{caught, in_time};
use sengadlit::buffer::{Buffer, BufferSettings, GlyphInfo, ShaperError, Span};
use sengadlit::ot_shaper_syllabic::{MayChange, Reorder, ReorderBySteps, reorder_syllables};
use sengadlit::plan::{Pause, Plan};
use sengadlit::shaper::Shaper;
use sengadlit::shaper::checked::{CallError, Condition};
use std::env;

/// Makes a checked call with a plain font and these spans.
fn make(
    call: Call,
    shaper: Shaper,
    plan: &Plan,
    spans: &[Span],
    buffer: &mut Buffer,
) -> Result<Returned, CallError> {
    let setting = Setting {
        shaper,
        plan,
        font: &PlainFont(100),
        tables: &PlainTables,
        spans,
    };
    call.make_checked(&setting, buffer)
}

/// Asserts that a checked call stops at this condition, and leaves the buffer as it was.
#[track_caller]
fn assert_stops(
    condition: Condition,
    buffer: &Buffer,
    call: impl Fn(&mut Buffer) -> Result<Returned, CallError>,
) {
    let mut changed = copy_of(buffer);
    assert_eq!(call(&mut changed), Err(CallError::Condition(condition)));
    assert_eq!(Contents::of(&changed), Contents::of(buffer));
}

/// A text of two letters, with positions.
fn positioned_text() -> Buffer {
    let mut text = text_of(&[0x628, 0x628], 10);
    set_advances(&mut text, &[500, 500]);
    text
}

#[test]
fn positions_are_there_too_early_or_missing() {
    for shaper in Shaper::ALL {
        let plan = plan_of(shaper, b"Mong");
        let pauses = PAUSES.map(Call::Pause);
        let early = [Call::Preprocess, Call::Masks, Call::Marks(0, 1)];
        for call in early.into_iter().chain(pauses) {
            assert_stops(Condition::Positions, &positioned_text(), |buffer| {
                make(call, shaper, &plan, &[], buffer)
            });
        }
        let text = text_of(&[0x628, 0x628], 10);
        assert_stops(Condition::Positions, &text, |buffer| {
            make(Call::Postprocess, shaper, &plan, &[], buffer)
        });
    }
}

#[test]
fn a_range_lies_outside() {
    for shaper in Shaper::ALL {
        let plan = plan_of(shaper, b"Hebr");
        let text = text_of(&[0x5D0; 3], 10);
        for (start, end) in [(0, 4), (4, 4), (2, 1), (usize::MAX, 0), (0, usize::MAX)] {
            assert_stops(Condition::Range, &text, |buffer| {
                make(Call::Marks(start, end), shaper, &plan, &[], buffer)
            });
        }
        let mut text = text;
        assert!(make(Call::Marks(3, 3), shaper, &plan, &[], &mut text).is_ok());
    }
}

#[test]
fn marks_are_too_many_for_arabic() {
    for shaper in Shaper::ALL {
        let plan = plan_of(shaper, b"Arab");
        let mut text = text_of(&[0x64B; 40], 40);
        let mut run = |start, end| {
            let call = Call::Marks(start, end);
            make(call, shaper, &plan, &[], &mut text)
        };
        assert!(run(4, 36).is_ok());
        let many = run(4, 37);
        match shaper {
            Shaper::Arabic => assert_eq!(many, Err(CallError::Condition(Condition::Marks))),
            _ => assert!(many.is_ok()),
        }
    }
}

/// The hooks and pauses that read a plan's data, with the shaper that makes these.
const READERS: [(Call, Shaper); 10] = [
    (Call::Masks, Shaper::Arabic),
    (Call::Masks, Shaper::Hangul),
    (Call::Masks, Shaper::Universal),
    (Call::Postprocess, Shaper::Arabic),
    (Call::Pause(Pause::SetupSyllablesUse), Shaper::Universal),
    (Call::Pause(Pause::InitialReordering), Shaper::Indic),
    (Call::Pause(Pause::FinalReordering), Shaper::Indic),
    (Call::Pause(Pause::ReorderKhmer), Shaper::Khmer),
    (Call::Pause(Pause::RecordStch), Shaper::Arabic),
    (Call::Pause(Pause::RecordRphf), Shaper::Universal),
];

#[test]
fn a_plan_has_no_data_or_anothers() {
    let spans = [Span { len: 2, kind: 0 }];
    for (call, shaper) in READERS {
        let text = match call.wants_positions() {
            true => positioned_text(),
            false => text_of(&[0x628, 0x628], 10),
        };
        let others = Shaper::ALL.into_iter().filter(|other| *other != shaper);
        let plans = others.map(|other| plan_of(other, b"Mong"));
        for plan in plans.chain([bare_plan(b"Mong", &[])]) {
            assert_stops(Condition::PlanData, &text, |buffer| {
                make(call, shaper, &plan, &spans, buffer)
            });
        }
        let mut text = text;
        assert!(make(call, shaper, &plan_of(shaper, b"Mong"), &spans, &mut text).is_ok());
    }
}

#[test]
fn glyphs_are_no_characters() {
    for number in [0xD800, 0xDFFF, 0x11_0000, u32::MAX] {
        for shaper in [Shaper::Arabic, Shaper::Universal] {
            let plan = plan_of(shaper, b"Mong");
            let text = text_of(&[0x1820, number], 10);
            assert_stops(Condition::Glyphs, &text, |buffer| {
                make(Call::Masks, shaper, &plan, &[], buffer)
            });
        }
        let unjoined = plan_of(Shaper::Universal, b"Bali");
        let mut text = text_of(&[0x1B05, number], 10);
        assert!(make(Call::Masks, Shaper::Universal, &unjoined, &[], &mut text).is_ok());
    }
}

#[test]
fn glyphs_have_no_numbers_of_a_font() {
    let plan = plan_of(Shaper::Arabic, b"Syrc");
    let mut text = text_of(&[0xFFFF, 0x1_0000], 10);
    set_advances(&mut text, &[500, 500]);
    assert_stops(Condition::Glyphs, &text, |buffer| {
        make(Call::Postprocess, Shaper::Arabic, &plan, &[], buffer)
    });
}

#[test]
fn spans_have_no_kinds() {
    for shaper in Shaper::ALL {
        let plan = plan_of(shaper, b"Mong");
        for pause in PAUSES {
            let spans = [Span { len: 1, kind: 15 }, Span { len: 1, kind: 16 }];
            let text = text_of(&[0x1820, 0x1821], 10);
            let mut changed = copy_of(&text);
            let call = Call::Pause(pause);
            let returned = make(call, shaper, &plan, &spans, &mut changed);
            // Data come first.
            assert!(matches!(
                returned,
                Err(CallError::Condition(
                    Condition::SpanKinds | Condition::PlanData
                ))
            ));
            assert_eq!(Contents::of(&changed), Contents::of(&text));
        }
    }
}

#[test]
fn a_hook_refuses_behind_its_conditions() {
    let plan = plan_of(Shaper::Thai, b"Thai");
    let mut text = text_of(&[0xE01, 0xE33], 2);
    let returned = make(Call::Preprocess, Shaper::Thai, &plan, &[], &mut text);
    assert_eq!(returned, Err(CallError::Refused(ShaperError::TooLong)));
}

#[test]
fn settings_leave_a_limit_of_at_least_the_length() {
    let plan = plan_of(Shaper::Thai, b"Thai");
    let mut text = text_of(&[0xE14, 0xE4B, 0xE33], 10);
    text.set_settings(&BufferSettings::new(1));
    assert_eq!(text.max_len(), 3);
    let before = Contents::of(&text);
    let returned = make(Call::Preprocess, Shaper::Thai, &plan, &[], &mut text);
    assert_eq!(returned, Err(CallError::Refused(ShaperError::TooLong)));
    assert_eq!(text.push_str("a"), Err(ShaperError::TooLong));
    assert_eq!(text.grow(1), Err(ShaperError::TooLong));
    assert_eq!(Contents::of(&text), before);
}

#[test]
fn a_wrong_rewriting_leaves_no_more_glyphs_than_it_said() {
    for written in [0, 2, 3, 100] {
        let mut text = text_of(&[0x1780, 0x17C1], 3);
        assert_eq!(text.rewrite(3, &Wrong(written)), Ok(()));
        assert_eq!(text.len(), written.min(3));
        assert_eq!(text.rewrite(4, &Wrong(4)), Err(ShaperError::TooLong));
    }
}

/// An order that adds a glyph to the buffer for each syllable.
struct Growing;

impl MayChange for Growing {
    fn may_change(&self, _glyph: &GlyphInfo) -> bool {
        true
    }
}

impl Reorder for Growing {
    fn reorder(&self, buffer: &mut Buffer, _: usize, _: usize) -> Result<(), ShaperError> {
        buffer.push(letter(0x1780, 9))
    }
}

impl ReorderBySteps for Growing {}

#[test]
fn a_wrong_order_leaves_no_more_glyphs_than_the_buffer_may_have() {
    let mut text = text_of(&[0x1780, 0x17C1], 5);
    let returned = reorder_syllables(&Growing, &mut text);
    assert_eq!(returned, Err(ShaperError::TooLong));
    assert_eq!(text.len(), 5);
}

#[test]
fn a_plan_without_data_panics_with_whose_they_are() {
    for (call, shaper) in READERS {
        let setting = Setting {
            shaper,
            plan: &bare_plan(b"Mong", &[]),
            font: &PlainFont(100),
            tables: &PlainTables,
            spans: &[Span { len: 2, kind: 0 }],
        };
        let mut text = match call.wants_positions() {
            true => positioned_text(),
            false => text_of(&[0x628, 0x628], 10),
        };
        let reason = caught(|| call.make(&setting, &mut text)).unwrap_err();
        let reason = reason.downcast_ref::<&str>().unwrap().to_string();
        let name = match shaper {
            Shaper::Universal => "universal".to_string(),
            _ => format!("{shaper:?}"),
        };
        assert!(
            reason.ends_with(&format!("the plan has no data of the {name} shaper")),
            "{reason}"
        );
    }
}

/// How many calls are drawn by lot of each kind of buffer, unless SENGADLIT_CALLS tells another number.
const CALLS: u64 = 40_000;

/// Makes a call that may be a misuse, checked: it stops or refuses without a change, or does what
/// the call that isn't checked does. Whether it stopped.
fn play(seed: u64, kind: Glyphs) -> bool {
    let misuse = Misuse::random(&mut Numbers::new(seed), kind);
    let (font, tables) = (LotFont(Steady(seed)), LotTables(Steady(!seed)));
    let setting = misuse.setting(&font, &tables);
    let mut checked = copy_of(&misuse.buffer);
    let returned = misuse.call.make_checked(&setting, &mut checked);
    if returned.is_err() {
        assert_eq!(Contents::of(&checked), Contents::of(&misuse.buffer));
    }
    if let Err(CallError::Condition(_)) = returned {
        assert!(!misuse.call.fits(&setting, &misuse.buffer), "seed {seed}");
        return true;
    }
    let mut unchecked = copy_of(&misuse.buffer);
    let wanted = misuse.call.make(&setting, &mut unchecked);
    assert_eq!(returned, wanted.map_err(CallError::Refused), "seed {seed}");
    assert_eq!(
        Contents::of(&checked),
        Contents::of(&unchecked),
        "seed {seed}"
    );
    false
}

#[test]
fn whatever_a_caller_does_checked_calls_return() {
    let calls = env::var("SENGADLIT_CALLS").map_or(CALLS, |number| number.parse().unwrap());
    let play_all = move || {
        for kind in [Glyphs::Letters, Glyphs::Any, Glyphs::Spoiled] {
            let stopped = (0..calls).filter(|seed| play(*seed, kind)).count() as u64;
            println!("{kind:?}: {stopped} of {calls} calls stopped at a condition");
            assert!((calls / 4..calls / 2).contains(&stopped));
        }
    };
    if calls > CALLS {
        play_all()
    } else {
        in_time(play_all)
    }
}
