//! Buffers that no text leaves, within the conditions of the calls: whatever stands in the fields
//! of the glyphs, a call returns, loses no glyph, invents no cluster, and refuses without a change.

mod common;

use common::buffers::{Contents, Glyphs, buffer_of, letter, number_of};
use common::calls::{Call, Returned, Setting};
use common::fonts::{LotFont, LotTables, Steady};
use common::numbers::Numbers;
use common::plans::{PAUSES, random_plan};
use common::scenes::Scene;
use common::watchdog::in_time;
use sengadlit::buffer::{GlyphInfo, ShaperError};
use sengadlit::plan::Pause;
use sengadlit::shaper::Shaper;

/// How many calls are made of each kind of buffer.
const CALLS: u64 = 60_000;

/// Whether each number of a sorted list is in the other, as often.
fn is_among(part: &[u32], whole: &[u32]) -> bool {
    let mut rest = whole.iter();
    part.iter().all(|number| rest.any(|other| other == number))
}

/// What must hold of a call that was made.
fn check(scene: &Scene, returned: Result<Returned, ShaperError>, after: &Contents) {
    let before = Contents::of(&scene.buffer);
    assert_ne!(returned, Err(ShaperError::Memory));
    assert!(is_among(&after.clusters(), &before.clusters()));
    assert!(scene.may_compose() || is_among(&before.numbers(), &after.numbers()));
    assert!(after.glyphs.len() <= scene.buffer.max_len());
    let positions = after.positions.len();
    assert!(positions == 0 || positions == after.glyphs.len());
    let is_as_long = after.glyphs.len() == before.glyphs.len();
    if matches!(returned, Ok(Returned::Changed(_))) && is_as_long {
        check_syllables(&before, after);
    }
}

/// A pause that inserts no circle moves glyphs within each syllable alone.
fn check_syllables(before: &Contents, after: &Contents) {
    let mut start = 0;
    for syllable in before
        .glyphs
        .chunk_by(|first, second| first.syllable == second.syllable)
    {
        let end = start + syllable.len();
        let mut numbers: Vec<_> = after.glyphs[start..end]
            .iter()
            .map(|glyph| number_of(glyph) as usize)
            .collect();
        numbers.sort_unstable();
        assert_eq!(numbers, (start..end).collect::<Vec<_>>());
        start = end;
    }
}

/// Makes the calls whose conditions hold, each twice, and counts them.
fn run_scenes(kind: Glyphs, first_seed: u64) {
    let (mut done, mut refused) = (0, 0);
    let scenes = (first_seed..first_seed + CALLS).map(|seed| (seed, Scene::random(seed, kind)));
    for (seed, scene) in scenes.filter(|(_, scene)| scene.fits()) {
        let shown = Shown(format!(
            "seed {seed}: {:?} of {:?}",
            scene.call, scene.shaper
        ));
        let (returned, after) = scene.play();
        check(&scene, returned, &after);
        assert_eq!(scene.play(), (returned, after), "the same again");
        *if returned.is_ok() {
            &mut done
        } else {
            &mut refused
        } += 1;
        drop(shown);
    }
    println!("{kind:?}: {done} calls done, {refused} refused");
    assert!(done > CALLS / 2 && refused > CALLS / 300);
}

/// Which call is made: printed where the thread panics.
struct Shown(String);

impl Drop for Shown {
    fn drop(&mut self) {
        if std::thread::panicking() {
            eprintln!("{}", self.0);
        }
    }
}

#[test]
fn letters_with_any_fields_are_shaped() {
    in_time(|| run_scenes(Glyphs::Letters, 0));
}

#[test]
fn glyphs_with_any_fields_are_shaped() {
    in_time(|| run_scenes(Glyphs::Any, CALLS));
}

/// A syllable of 3,000 glyphs whose clusters rise and fall in turn.
fn long_syllable(numbers: &mut Numbers) -> Vec<GlyphInfo> {
    (0..3000)
        .map(|i| GlyphInfo {
            cluster: if i % 2 == 0 { i } else { 3000 - i },
            syllable: 0x10,
            category: numbers.below(42) as u8,
            auxiliary: numbers.below(15) as u8,
            ..letter(0x915 + i % 30, i)
        })
        .collect()
}

fn reorder_long_syllable(shaper: Shaper, pause: Pause, seed: u64) {
    let numbers = &mut Numbers::new(seed);
    let mut buffer = buffer_of(&long_syllable(numbers), 10_000);
    let setting = Setting {
        shaper,
        plan: &random_plan(numbers, shaper),
        font: &LotFont(Steady(seed)),
        tables: &LotTables(Steady(seed)),
        spans: &[],
    };
    let call = Call::Pause(pause);
    if call.fits(&setting, &buffer) && call.make(&setting, &mut buffer).is_ok() {
        assert!(Contents::of(&buffer).numbers().into_iter().eq(0..3000));
    }
}

#[test]
fn long_syllables_are_reordered() {
    in_time(|| {
        for (pause, seed) in PAUSES.into_iter().zip(0..) {
            for shaper in Shaper::ALL {
                reorder_long_syllable(shaper, pause, seed);
            }
        }
    });
}
