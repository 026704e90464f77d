//! What each call refuses, at the border where it begins to refuse, and that a refused call changes
//! nothing. (Refused memory: tests/memory.)

mod common;

use common::buffers::{Contents, buffer_of, copy_of, letter, set_advances, text_of};
use common::calls::{Call, Returned, Setting};
use common::fonts::{PlainFont, PlainTables};
use common::plans::{bare_plan, plan_of, plan_with};
use sengadlit::alloc::{Global, Vec as List};
use sengadlit::buffer::{
    Buffer, Direction, GlyphInfo, GlyphProps, LigProps, ShaperError, Span, Tag,
};
use sengadlit::map::{FeatureMap, Map};
use sengadlit::ot_shaper_syllabic::{
    indic_syllable, khmer_syllable, myanmar_syllable, use_syllable,
};
use sengadlit::plan::{Pause, Plan, PlanData};
use sengadlit::shaper::{Shaper, run_pause};

/// Makes a call with a plain font, in which every glyph has this advance.
fn make(
    call: Call,
    shaper: Shaper,
    plan: &Plan,
    advance: i32,
    spans: &[Span],
    buffer: &mut Buffer,
) -> Result<Returned, ShaperError> {
    let setting = Setting {
        shaper,
        plan,
        font: &PlainFont(advance),
        tables: &PlainTables,
        spans,
    };
    assert!(call.fits(&setting, buffer));
    call.make(&setting, buffer)
}

/// Asserts that a call refuses with this error, and leaves the buffer as it was.
#[track_caller]
fn assert_refuses<R>(
    error: ShaperError,
    buffer: &Buffer,
    call: impl Fn(&mut Buffer) -> Result<R, ShaperError>,
) {
    let mut changed = copy_of(buffer);
    assert_eq!(call(&mut changed).map(drop), Err(error));
    assert_eq!(Contents::of(&changed), Contents::of(buffer));
}

/// Asserts that a call needs a greatest length of this many glyphs, refuses with less, and leaves
/// so many.
#[track_caller]
fn assert_needs_room<R>(
    needed: usize,
    text: &Buffer,
    call: impl Fn(&mut Buffer) -> Result<R, ShaperError>,
) {
    for max_len in 0..needed {
        let mut buffer = copy_of(text);
        buffer.set_max_len(max_len);
        assert_refuses(ShaperError::TooLong, &buffer, &call);
    }
    let mut buffer = copy_of(text);
    buffer.set_max_len(needed);
    assert_eq!(call(&mut buffer).map(drop), Ok(()));
    assert_eq!(buffer.len(), needed);
}

#[test]
fn preprocessing_may_be_too_long() {
    let thai = plan_of(Shaper::Thai, b"Thai");
    let text = text_of(&[0xE01, 0xE33, 0xE02, 0xE33], 100);
    assert_needs_room(6, &text, |buffer| {
        make(Call::Preprocess, Shaper::Thai, &thai, 0, &[], buffer)
    });
    let hangul = plan_of(Shaper::Hangul, b"Hang");
    assert_needs_room(5, &text_of(&[0xAC00, 0xAC01], 100), |buffer| {
        make(Call::Preprocess, Shaper::Hangul, &hangul, 0, &[], buffer)
    });
}

/// The pauses that reorder, with a shaper whose data they read, the kind of broken syllables, and
/// the first kind that is unknown.
const REORDERINGS: [(Pause, Shaper, u8, Option<u8>); 4] = [
    (
        Pause::InitialReordering,
        Shaper::Indic,
        indic_syllable::BROKEN_CLUSTER,
        Some(6),
    ),
    (
        Pause::ReorderKhmer,
        Shaper::Khmer,
        khmer_syllable::BROKEN_CLUSTER,
        Some(3),
    ),
    (
        Pause::ReorderMyanmar,
        Shaper::Myanmar,
        myanmar_syllable::BROKEN_CLUSTER,
        Some(4),
    ),
    (
        Pause::ReorderUse,
        Shaper::Universal,
        use_syllable::BROKEN_CLUSTER,
        None,
    ),
];

/// A buffer of syllables of two glyphs, of these kinds, with the mark of a broken syllable.
fn syllables(kinds: &[u8]) -> Buffer {
    let glyphs: Vec<_> = (0..2 * kinds.len())
        .map(|i| GlyphInfo {
            syllable: ((i / 2 + 1) << 4) as u8 | kinds[i / 2],
            category: 1,
            auxiliary: 4,
            ..letter(0x915, i as u32)
        })
        .collect();
    let mut buffer = buffer_of(&glyphs, 100);
    buffer.set_has_broken_syllable(true);
    buffer
}

#[test]
fn a_circle_may_be_too_much() {
    for (pause, shaper, broken, _) in REORDERINGS {
        let plan = plan_of(shaper, b"Deva");
        assert_needs_room(8, &syllables(&[broken, 0, broken]), |buffer| {
            make(Call::Pause(pause), shaper, &plan, 0, &[], buffer)
        });
    }
}

#[test]
fn a_syllable_may_be_of_unknown_kind() {
    for (pause, shaper, broken, unknown) in REORDERINGS {
        let plan = plan_of(shaper, b"Deva");
        let run = |buffer: &mut Buffer| make(Call::Pause(pause), shaper, &plan, 0, &[], buffer);
        let Some(unknown) = unknown else {
            assert!(run(&mut syllables(&[15])).is_ok());
            continue;
        };
        assert!(run(&mut syllables(&[0, unknown - 1])).is_ok());
        for kind in unknown..=15 {
            let mut text = syllables(&[0, kind, broken, 15]);
            assert_refuses(ShaperError::UnknownSyllable(2), &text, run);
            // An unknown kind counts before a text that is too long.
            text.set_max_len(text.len());
            assert_refuses(ShaperError::UnknownSyllable(2), &text, run);
        }
    }
}

#[test]
fn spans_may_not_cover_the_text() {
    let pauses = [
        (Pause::SetupSyllablesIndic, Shaper::Indic),
        (Pause::SetupSyllablesKhmer, Shaper::Khmer),
        (Pause::SetupSyllablesMyanmar, Shaper::Myanmar),
        (Pause::SetupSyllablesUse, Shaper::Universal),
    ];
    let text = text_of(&[0x915, 0x916, 0x917], 3);
    for (pause, shaper) in pauses {
        let plan = plan_of(shaper, b"Deva");
        let run = |lengths: &[usize], buffer: &mut Buffer| {
            let spans: Vec<_> = lengths.iter().map(|&len| Span { len, kind: 1 }).collect();
            make(Call::Pause(pause), shaper, &plan, 0, &spans, buffer)
        };
        let refused: [&[usize]; 7] = [&[], &[2], &[4], &[3, 0], &[0, 3], &[usize::MAX, 4], &[1, 1]];
        for lengths in refused {
            assert_refuses(ShaperError::SpansDontCover, &text, |buffer| {
                run(lengths, buffer)
            });
        }
        for lengths in [&[1, 2][..], &[3], &[1, 1, 1]] {
            assert_eq!(
                run(lengths, &mut copy_of(&text)),
                Ok(Returned::Changed(false))
            );
        }
    }
}

/// A word and two tiles of a mark that stretches over it, recorded, and the plan.
fn stretched(word_advance: i32, direction: Direction) -> (Plan, Buffer) {
    let plan = plan_with(Shaper::Arabic, b"Syrc", &[(b"stch", 8)]);
    let mut text = text_of(&[0x710, 0x70F, 0x70F], 1000);
    for (place, component) in [(1, 2), (2, 3)] {
        let tile = GlyphInfo {
            glyph_props: GlyphProps::MULTIPLIED,
            lig_props: LigProps(component),
            ..text.get(place)
        };
        text.set(place, tile);
    }
    let record = Call::Pause(Pause::RecordStch);
    make(record, Shaper::Arabic, &plan, 0, &[], &mut text).unwrap();
    assert!(text.has_stch());
    if direction == Direction::LeftToRight {
        text.reverse();
    }
    text.set_direction(direction);
    let mut advances = [0; 3];
    advances[text
        .glyphs()
        .iter()
        .position(|glyph| glyph.cluster == 0)
        .unwrap()] = word_advance;
    set_advances(&mut text, &advances);
    (plan, text)
}

#[test]
fn a_stretched_mark_may_be_too_long() {
    let (plan, text) = stretched(1000, Direction::RightToLeft);
    assert_needs_room(11, &text, |buffer| {
        make(Call::Postprocess, Shaper::Arabic, &plan, 100, &[], buffer)
    });
}

#[test]
fn widths_of_a_stretched_mark_may_overflow() {
    let (plan, mut text) = stretched(1000, Direction::RightToLeft);
    // Two fixed tiles, each as wide as 32 bits go.
    let fixed = GlyphInfo {
        auxiliary: text.get(1).auxiliary,
        ..text.get(2)
    };
    text.set(2, fixed);
    text.set_max_len(3);
    let run = |advance| {
        let plan = &plan;
        move |buffer: &mut Buffer| {
            make(
                Call::Postprocess,
                Shaper::Arabic,
                plan,
                advance,
                &[],
                buffer,
            )
        }
    };
    assert_refuses(ShaperError::StretchOverflow, &text, run(i32::MAX));
    assert_eq!(run(100)(&mut copy_of(&text)), Ok(Returned::Done));
}

#[test]
fn a_buffer_has_a_greatest_length() {
    let text = text_of(&[0x41, 0x42], 2);
    assert_refuses(ShaperError::TooLong, &text, |buffer| {
        buffer.push(GlyphInfo::DEFAULT)
    });
    assert_refuses(ShaperError::TooLong, &text, |buffer| buffer.grow(1));
    assert_refuses(ShaperError::TooLong, &text, |buffer| {
        buffer.grow(usize::MAX)
    });
    assert_refuses(ShaperError::TooLong, &text, |buffer| {
        buffer.replace_glyphs(List::from_elem(Global, letter(7, 7), 3)?)
    });
    let mut text = text;
    assert_eq!(text.grow(0), Ok(()));
    text.set_max_len(3);
    assert_eq!(text.push(GlyphInfo::DEFAULT), Ok(()));
}

#[test]
fn positions_are_one_a_glyph_or_none() {
    let mut text = text_of(&[0x41, 0x42], 2);
    for count in [1, 3] {
        let positions = List::from_elem(Global, sengadlit::buffer::GlyphPosition::ZERO, count);
        assert!(!text.set_positions(positions.unwrap()));
        assert_eq!(text.positions_len(), 0);
    }
    set_advances(&mut text, &[5, 6]);
    assert!(text.set_positions(List::new(Global)));
}

#[test]
fn a_map_has_ranges_and_masks_above_the_glyph_flags() {
    let map = |mask, stage| {
        let feature = FeatureMap {
            tag: Tag(*b"isol"),
            mask,
            stage: 0,
        };
        let made = Map::from_slices(Global, &[feature], &[stage], &[7, 8], 0, None, false);
        made.unwrap().is_some()
    };
    #[expect(clippy::reversed_empty_ranges, reason = "a stage that is no range")]
    let stray = [1..3, 3..3, 2..1, 0..usize::MAX];
    assert!(stray.into_iter().all(|stage| !map(8, stage)));
    assert!([0..2, 2..2, 1..1].into_iter().all(|stage| map(8, stage)));
    assert!(
        [1, 2, 4, 12, 0xF, u32::MAX]
            .into_iter()
            .all(|mask| !map(mask, 0..0))
    );
    assert!([0, 8, !7].into_iter().all(|mask| map(mask, 0..0)));
}

#[test]
fn data_are_of_the_shaper_that_makes_them() {
    for shaper in Shaper::ALL {
        let mut plan = bare_plan(b"Mong", &[(b"init", 8)]);
        let data = shaper.create_data(&plan);
        let has_data = data.is_some();
        plan.plan_data = data.unwrap_or(PlanData::None);
        assert_eq!(
            plan.plan_data,
            shaper
                .with_data(bare_plan(b"Mong", &[(b"init", 8)]))
                .plan_data
        );
        let fits = Call::Pause(Pause::SyllabicClearVar);
        let mut text = text_of(&[0x1820], 1);
        assert_eq!(
            make(fits, shaper, &plan, 0, &[], &mut text),
            Ok(Returned::Changed(false))
        );
        assert_eq!(has_data, plan.plan_data != PlanData::None);
    }
}

/// Where spans don't cover, what a broken kind among them would note isn't noted.
#[test]
fn refused_spans_note_no_broken_syllable() {
    let plan = plan_of(Shaper::Khmer, b"Khmr");
    let mut text = text_of(&[0x1780, 0x17D2], 2);
    let kind = khmer_syllable::BROKEN_CLUSTER;
    let run = |len, text: &mut Buffer| {
        let spans = [Span { len, kind }];
        run_pause(
            Pause::SetupSyllablesKhmer,
            &plan,
            &PlainFont(0),
            &spans,
            text,
        )
    };
    assert_eq!(run(1, &mut text), Err(ShaperError::SpansDontCover));
    assert!(!text.has_broken_syllable());
    assert_eq!(run(2, &mut text), Ok(false));
    assert!(text.has_broken_syllable());
}
