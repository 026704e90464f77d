//! Trials of the calls that grow a buffer, a planner's list, or a map.

use crate::common::buffers::{buffer_of, letter, set_advances};
use crate::common::fonts::PlainFont;
use crate::trial::{Subject, Trial};
use sengadlit::alloc::{Global, Vec as List};
use sengadlit::buffer::{Buffer, Direction, GlyphInfo, Script, ShaperError, Tag};
use sengadlit::editing::caret_stops;
use sengadlit::map::{F_NONE, FeatureMap, Map};
use sengadlit::plan::{Pause, Plan, PlanError, Planner, Request};
use sengadlit::shaper::Shaper;
use std::cell::RefCell;

/// A trial that takes memory.
fn trial(
    name: String,
    subject: Subject,
    call: impl Fn(&mut Subject) -> Result<(), ShaperError> + 'static,
) -> Trial {
    Trial {
        name,
        may_refuse: true,
        subject,
        call: Box::new(call),
    }
}

fn text(length: usize) -> Buffer {
    let glyphs: Vec<_> = (0..length as u32).map(|i| letter(i % 3, i)).collect();
    buffer_of(&glyphs, 100_000)
}

/// Each call of the buffer that may refuse memory.
pub fn of_the_buffer(length: usize) -> Vec<Trial> {
    let named = |call: &str| format!("{call} with {length} glyphs");
    let mut positioned = text(length);
    set_advances(&mut positioned, &vec![1000; length]);
    vec![
        trial(named("push"), Subject::Buffer(text(length)), |subject| {
            subject.buffer().push(GlyphInfo::DEFAULT)
        }),
        trial(named("grow"), Subject::Buffer(text(length)), |subject| {
            subject.buffer().grow(1000)
        }),
        trial(
            named("grow with positions"),
            Subject::Buffer(positioned),
            |subject| subject.buffer().grow(1000),
        ),
        trial(
            named("replace_glyphs"),
            Subject::Buffer(text(length)),
            |subject| {
                let glyphs = List::from_elem(Global, letter(7, 7), 3000)?;
                subject.buffer().replace_glyphs(glyphs)
            },
        ),
        trial(named("copy"), Subject::Buffer(text(length)), |subject| {
            *subject.buffer() = subject.buffer().copy()?;
            Ok(())
        }),
        trial(named("keep"), Subject::Buffer(text(length)), |subject| {
            let kept = subject.buffer().keep()?;
            subject.buffer().restore(kept);
            Ok(())
        }),
        trial(
            named("push_str"),
            Subject::Buffer(text(length)),
            |subject| subject.buffer().push_str("a text of several characters"),
        ),
    ]
}

/// Stops of a caret before each second glyph of a text: a list without room takes memory, and one
/// that has room for so many stops, and no more, takes none.
pub fn of_caret_stops(length: usize) -> Vec<Trial> {
    let mut trials = Vec::new();
    for direction in [Direction::LeftToRight, Direction::RightToLeft] {
        let mut glyphs: Vec<_> = (0..length as u32).map(|i| letter(0x61, i / 2)).collect();
        if direction == Direction::RightToLeft {
            glyphs.reverse();
        }
        let text = || Subject::Buffer(buffer_of(&glyphs, 100_000));
        let name = format!("caret_stops, {direction:?}, of {length} glyphs");
        trials.push(trial(name.clone(), text(), move |subject| {
            caret_stops(subject.buffer().glyphs(), direction, &mut List::new(Global))
        }));
        let list = RefCell::new(List::with_capacity(Global, length / 2).unwrap());
        let call = move |subject: &mut Subject| {
            let stops = &mut *list.borrow_mut();
            caret_stops(subject.buffer().glyphs(), direction, stops)?;
            assert_eq!(stops.len(), length / 2);
            Ok(())
        };
        trials.push(Trial {
            may_refuse: false,
            ..trial(format!("{name}, with room"), text(), call)
        });
    }
    trials
}

/// Each call that exchanges a caller's lists for those of the buffer. A refused one gives the lists
/// back as they were.
pub fn exchanging(length: usize) -> Vec<Trial> {
    let named = |call: &str| format!("{call} with {length} glyphs");
    vec![trial(
        named("exchange_glyphs"),
        Subject::Buffer(text(length)),
        |subject| {
            let mut glyphs = List::from_elem(Global, letter(7, 7), 3000)?;
            let returned = subject.buffer().exchange_glyphs(&mut glyphs);
            assert_eq!(glyphs.len() == 3000, returned.is_err());
            returned
        },
    )]
}

const TAG: Tag = Tag(*b"rphf");

/// A planner with so many requests.
fn planner(length: usize) -> Subject {
    let mut planner = Planner::new(Global, Some(Script(*b"Arab")));
    for value in 0..length as u32 {
        planner.add_feature(TAG, F_NONE, value).unwrap();
    }
    Subject::Planner(planner)
}

/// Each call that grows a planner's list.
pub fn of_the_planner(length: usize) -> Vec<Trial> {
    let named = |call: &str| format!("{call} with {length} requests");
    let mut trials = vec![
        trial(named("add_requests"), planner(length), |subject| {
            let requests = [Request::Pause(None); 1000];
            subject.planner().add_requests(&requests)
        }),
        trial(named("add_feature"), planner(length), |subject| {
            subject.planner().add_feature(TAG, F_NONE, 1)
        }),
        trial(named("enable_feature"), planner(length), |subject| {
            subject.planner().enable_feature(TAG, F_NONE, 1)
        }),
        trial(named("disable_feature"), planner(length), |subject| {
            subject.planner().disable_feature(TAG)
        }),
        trial(named("add_gsub_pause"), planner(length), |subject| {
            subject.planner().add_gsub_pause(Some(Pause::RecordRphf))
        }),
        trial(named("add_request"), planner(length), |subject| {
            subject.planner().add_request(Request::Pause(None))
        }),
        trial(named("try_clone"), planner(length + 1), |subject| {
            *subject.planner() = subject.planner().try_clone()?;
            Ok(())
        }),
    ];
    trials.extend(Shaper::ALL.map(|shaper| collecting(shaper, length)));
    trials.extend(Shaper::ALL.map(|shaper| overriding(shaper, length)));
    trials
}

fn collecting(shaper: Shaper, length: usize) -> Trial {
    let name = format!("collect_features of {shaper:?} with {length} requests");
    Trial {
        may_refuse: !matches!(
            shaper,
            Shaper::Hebrew | Shaper::MyanmarZawgyi | Shaper::Thai
        ),
        ..trial(name, planner(length), move |subject| {
            let planner = subject.planner();
            shaper.collect_features(&PlainFont(100), planner).map(drop)
        })
    }
}

fn overriding(shaper: Shaper, length: usize) -> Trial {
    let name = format!("override_features of {shaper:?} with {length} requests");
    Trial {
        may_refuse: matches!(shaper, Shaper::Hangul | Shaper::Indic | Shaper::Khmer),
        ..trial(name, planner(length), move |subject| {
            shaper.override_features(subject.planner()).map(drop)
        })
    }
}

const FEATURE: FeatureMap = FeatureMap {
    tag: TAG,
    mask: 8,
    stage: 0,
};

/// The map, made from slices, and the plan, built from them.
pub fn of_the_map(length: usize) -> Vec<Trial> {
    let from_slices = format!("Map::from_slices with {length} lookups");
    let no_map = format!("Map::from_slices with a stage past {length} lookups");
    let build = format!("PlanBuilder::build_for with {length} lookups");
    let copy = format!("Plan::try_clone with {length} lookups");
    vec![
        trial(copy, Subject::Nothing, move |_| {
            let (stages, lookups) = ([0..length, 0..1], &[7; 1024][..length]);
            let map = Map::from_slices(Global, &[FEATURE], &stages, lookups, 0, None, true)?;
            let plan = Plan::new(None, map.unwrap());
            assert_eq!(plan.try_clone()?, plan);
            Ok(())
        }),
        // What can't be a map's takes no memory, so that none is refused.
        Trial {
            may_refuse: false,
            ..trial(no_map, Subject::Nothing, move |_| {
                let (stage, lookups) = (0..length + 1, &[7; 1024][..length]);
                let stages = core::slice::from_ref(&stage);
                let map = Map::from_slices(Global, &[FEATURE], stages, lookups, 0, None, true)?;
                assert!(map.is_none());
                Ok(())
            })
        },
        trial(from_slices, Subject::Nothing, move |_| {
            let (stages, lookups) = ([0..length, 0..1], &[7; 1024][..length]);
            let map = Map::from_slices(Global, &[FEATURE], &stages, lookups, 0, None, true)?;
            assert!(map.is_some());
            Ok(())
        }),
        trial(build, Subject::Nothing, move |_| {
            let (stages, lookups) = ([0..length, 0..1], &[7; 1024][..length]);
            let builder = Plan::builder().features(&[FEATURE]).stages(&stages);
            match builder.lookups(lookups).build_for(Shaper::Khmer) {
                Ok(_) => Ok(()),
                Err(error) => {
                    assert_eq!(error, PlanError::Memory);
                    Err(ShaperError::Memory)
                }
            }
        }),
    ]
}
