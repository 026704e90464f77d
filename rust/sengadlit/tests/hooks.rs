//! Which shaper has which hook, an empty text in each, and threads that share what is constant.

mod common;

use common::buffers::{Contents, set_advances, text_of};
use common::calls::{Call, Returned, Setting};
use common::fonts::{PlainFont, PlainTables};
use common::plans::plan_of;
use sengadlit::alloc::Global;
use sengadlit::buffer::{Buffer, Script, ShaperError, Tag};
use sengadlit::font::FeaturesOnly;
use sengadlit::plan::{PlanData, Planner};
use sengadlit::shaper::{Hook, Shaper};
use sengadlit::{ot_shaper_hangul, ot_shaper_thai};
use std::cell::RefCell;

/// Makes a call of a shaper on a text.
fn make(call: Call, shaper: Shaper, text: &mut Buffer) -> Result<Returned, ShaperError> {
    let setting = Setting {
        shaper,
        plan: &plan_of(shaper, b"Mong"),
        font: &PlainFont(100),
        tables: &PlainTables,
        spans: &[],
    };
    match call.fits(&setting, text) {
        true => call.make(&setting, text),
        false => Ok(Returned::Absent),
    }
}

#[test]
fn an_empty_text_stays_empty() {
    for shaper in Shaper::ALL {
        for call in Call::all(0) {
            let mut text = text_of(&[], 0);
            let before = Contents::of(&text);
            assert!(
                make(call, shaper, &mut text).is_ok(),
                "{call:?} of {shaper:?}"
            );
            assert_eq!(Contents::of(&text), before, "{call:?} of {shaper:?}");
        }
    }
}

/// The hooks that a shaper has, in the order of `HOOKS`.
fn hooks_of(shaper: Shaper) -> [bool; 6] {
    match shaper {
        Shaper::Arabic => [false, true, true, true, false, false],
        Shaper::Hangul => [true, true, false, false, false, false],
        Shaper::Hebrew => [false, false, true, false, true, false],
        Shaper::Indic => [true, true, false, false, true, true],
        Shaper::Khmer => [false, true, false, false, true, true],
        Shaper::Myanmar => [false, true, false, false, false, false],
        Shaper::MyanmarZawgyi => [false; 6],
        Shaper::Thai => [true, false, false, false, false, false],
        Shaper::Universal => [true, true, false, false, true, false],
    }
}

const HOOK_NAMES: [Hook; 6] = [
    Hook::PreprocessText,
    Hook::SetupMasks,
    Hook::ReorderMarks,
    Hook::PostprocessGlyphs,
    Hook::Compose,
    Hook::Decompose,
];

const HOOKS: [Call; 6] = [
    Call::Preprocess,
    Call::Masks,
    Call::Marks(0, 2),
    Call::Postprocess,
    Call::Compose('\u{5D9}', '\u{5B4}'),
    Call::Decompose('\u{931}'),
];

#[test]
fn a_hook_that_a_shaper_lacks_changes_nothing() {
    for shaper in Shaper::ALL {
        let present = HOOKS.map(|call| {
            let mut text = text_of(&[0x1820, 0x1821], 10);
            if call.wants_positions() {
                set_advances(&mut text, &[500, 600]);
            }
            let before = Contents::of(&text);
            let is_absent = make(call, shaper, &mut text) == Ok(Returned::Absent);
            assert!(!is_absent || Contents::of(&text) == before);
            !is_absent
        });
        assert_eq!(present, hooks_of(shaper), "{shaper:?}");
        assert_eq!(HOOK_NAMES.map(|hook| shaper.has_hook(hook)), present);
    }
}

#[test]
fn shapers_request_features() {
    for shaper in Shaper::ALL {
        let mut planner = Planner::new(Global, Some(Script(*b"Arab")));
        let collects = shaper
            .collect_features(&PlainFont(0), &mut planner)
            .unwrap();
        let overrides = shaper.override_features(&mut planner).unwrap();
        let is_without = [Shaper::Hebrew, Shaper::MyanmarZawgyi, Shaper::Thai].contains(&shaper);
        let has_overrides = [Shaper::Hangul, Shaper::Indic, Shaper::Khmer].contains(&shaper);
        let present = [collects.is_some(), overrides.is_some()];
        assert_eq!(present, [!is_without, has_overrides], "{shaper:?}");
        let hooks = [Hook::CollectFeatures, Hook::OverrideFeatures];
        assert_eq!(hooks.map(|hook| shaper.has_hook(hook)), present);
    }
}

#[test]
fn the_list_of_arabic_alone_asks_the_font() {
    for shaper in Shaper::ALL {
        let asked = RefCell::new(Vec::new());
        let font = FeaturesOnly(|tag: Tag| {
            asked.borrow_mut().push(tag);
            false
        });
        let mut planner = Planner::new(Global, Some(Script(*b"Syrc")));
        shaper.collect_features(&font, &mut planner).unwrap();
        let asked = asked.borrow();
        assert!(asked.iter().all(|tag| *tag == Tag(*b"rclt")));
        assert_eq!(asked.is_empty(), shaper != Shaper::Arabic);
    }
}

#[test]
fn shapers_keep_data() {
    for shaper in Shaper::ALL {
        let kept = plan_of(shaper, b"Deva").plan_data;
        let is_kept = match shaper {
            Shaper::Arabic => matches!(kept, PlanData::Arabic(_)),
            Shaper::Hangul => matches!(kept, PlanData::Hangul(_)),
            Shaper::Indic => matches!(kept, PlanData::Indic(_)),
            Shaper::Khmer => matches!(kept, PlanData::Khmer(_)),
            Shaper::Universal => matches!(kept, PlanData::Universal(_)),
            _ => kept == PlanData::None,
        };
        assert!(is_kept, "{shaper:?}");
        assert_eq!(shaper.has_hook(Hook::CreateData), kept != PlanData::None);
    }
}

#[test]
fn thai_tells_whether_it_rewrote_the_text() {
    let without_forms = plan_of(Shaper::Thai, b"Laoo");
    let with_forms = plan_of(Shaper::Thai, b"Thai");
    let cases = [
        (&without_forms, &[0xE1B, 0xE49][..], false),
        (&without_forms, &[0xE1B, 0xE33], true),
        (&with_forms, &[0xE1B, 0xE49], true),
    ];
    for (plan, characters, changes) in cases {
        let mut text = text_of(characters, 10);
        let before = Contents::of(&text);
        let result = ot_shaper_thai::preprocess_text_changes(plan, &PlainFont(0), &mut text);
        assert_eq!(result, Ok(changes));
        assert!(changes || Contents::of(&text) == before);
    }
}

#[test]
fn hangul_tells_whether_it_rewrote_the_text() {
    let plan = plan_of(Shaper::Hangul, b"Hang");
    let cases = [
        (&[0x1100, 0x41][..], false),
        (&[0x41, 0x1100, 0x1161], true),
    ];
    for (characters, changes) in cases {
        let mut text = text_of(characters, 10);
        let before = Contents::of(&text);
        let result = ot_shaper_hangul::preprocess_text_changes(&plan, &PlainFont(0), &mut text);
        assert_eq!(result, Ok(changes));
        assert_eq!(Contents::of(&text) == before, !changes);
    }
}

#[test]
fn threads_share_a_plan() {
    let plan = plan_of(Shaper::Thai, b"Thai");
    let shape = || {
        let mut text = text_of(&[0xE1B, 0xE49, 0xE33], 10);
        let returned = Shaper::Thai.preprocess_text(&plan, &PlainFont(0), &mut text);
        assert!(returned.is_ok());
        Contents::of(&text)
    };
    let here = shape();
    std::thread::scope(|scope| {
        let threads: Vec<_> = (0..4).map(|_| scope.spawn(shape)).collect();
        for thread in threads {
            assert_eq!(thread.join().unwrap(), here);
        }
    });
}
