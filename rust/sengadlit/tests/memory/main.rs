//! Memory refused at each request in turn: the call returns `Memory`, all is as it was before, and
//! made again it does what it does without a refusal.

#[cfg(feature = "opentype")]
mod again;
mod allocator;
#[path = "../common/mod.rs"]
mod common;
#[cfg(feature = "tables")]
mod found;
mod hooks;
mod lists;
#[cfg(feature = "opentype")]
mod one_call;
#[cfg(feature = "opentype")]
mod prepared;
mod trial;

use allocator::Refusing;
use common::buffers::{Contents, Glyphs, copy_of};
use common::scenes::Scene;
use sengadlit::alloc::{AllocError, Global, Vec as List};
use sengadlit::buffer::ShaperError;
use trial::{Trial, refused_requests};

#[global_allocator]
static ALLOCATOR: Refusing = Refusing;

/// How many glyphs or requests there are before a call.
const LENGTHS: [usize; 2] = [4, 1024];

/// Runs trials: those that may refuse must have done so, and the others must take no memory. Prints
/// each, with its number of refusals.
fn run(trials: &[Trial]) {
    for trial in trials {
        let refusals = refused_requests(trial);
        println!("{}: {refusals} requests, each refused once", trial.name);
        assert_eq!(refusals > 0, trial.may_refuse, "{}", trial.name);
    }
}

#[test]
fn hooks_and_pauses_that_may_refuse_memory() {
    for length in LENGTHS {
        run(&hooks::growing(false, length));
        run(&hooks::growing(true, length));
    }
}

#[test]
fn hooks_and_pauses_that_take_no_memory() {
    for length in LENGTHS {
        run(&hooks::standing(length));
    }
    run(&hooks::moving(200));
}

#[cfg(feature = "tables")]
#[test]
fn calls_that_find_syllables_or_take_a_text() {
    for length in LENGTHS {
        run(&found::growing(length));
        run(&found::standing(length));
    }
}

#[cfg(feature = "opentype")]
#[test]
fn texts_of_one_call_are_given_back() {
    one_call::texts_are_given_back();
    one_call::a_new_buffer_may_be_refused();
    one_call::graphemes_that_are_refused_stay_as_they_are();
}

#[cfg(feature = "opentype")]
#[test]
fn a_new_text_takes_memory_for_itself_alone() {
    one_call::a_cache_lends_its_room();
}

#[cfg(feature = "opentype")]
#[test]
fn tables_of_a_prepared_face_are_bounded() {
    prepared::tables_stay_within_their_budget();
}

#[cfg(feature = "opentype")]
#[test]
fn texts_shaped_again_take_no_memory() {
    again::the_fifth_text_takes_no_memory();
}

#[test]
fn calls_of_the_buffer() {
    for length in LENGTHS {
        run(&lists::of_the_buffer(length));
        run(&lists::exchanging(length));
    }
}

#[test]
fn stops_of_a_caret() {
    for length in LENGTHS {
        run(&lists::of_caret_stops(length));
    }
}

#[test]
fn calls_of_planner_and_map() {
    for length in LENGTHS {
        run(&lists::of_the_planner(length));
        run(&lists::of_the_map(length));
    }
}

#[test]
fn an_append_that_is_refused_changes_neither_list() {
    let list = |items| List::from_slice(Global, items).unwrap();
    let (mut words, mut more) = (list(&[1, 2]), list(&[3; 100]));
    let (returned, requests) = allocator::refusing(1, || words.append(&mut more));
    assert_eq!((returned, requests), (Err(AllocError), 1));
    assert_eq!((&*words, &*more), (&[1, 2][..], &[3; 100][..]));
    assert_eq!(words.append(&mut more), Ok(()));
    assert_eq!((words.len(), more.len()), (102, 0));
}

/// Calls drawn by lot, each with each of its requests refused.
#[test]
fn calls_drawn_by_lot() {
    let mut refusals = 0;
    for seed in 0..40_000 {
        let kinds = [Glyphs::Letters, Glyphs::Any];
        let scene = Scene::random(seed, kinds[seed as usize % 2]);
        if scene.fits() {
            refusals += refuse_each(&scene);
        }
    }
    println!("{refusals} requests of calls drawn by lot, each refused once");
    assert!(refusals > 300);
}

/// Refuses each request of a scene's call: how many there are.
fn refuse_each(scene: &Scene) -> usize {
    let setting = scene.setting();
    let mut buffer = copy_of(&scene.buffer);
    let (wanted, requests) = allocator::refusing(0, || scene.call.make(&setting, &mut buffer));
    assert_ne!(wanted, Err(ShaperError::Memory), "refused by nobody");
    for refused in 1..=requests {
        let mut again = copy_of(&scene.buffer);
        let (returned, _) = allocator::refusing(refused, || scene.call.make(&setting, &mut again));
        // (a text that becomes too long is refused for that, whether or not memory is)
        let expected = match wanted {
            Err(ShaperError::TooLong) => ShaperError::TooLong,
            _ => ShaperError::Memory,
        };
        assert_eq!(returned, Err(expected));
        assert_eq!(Contents::of(&again), Contents::of(&scene.buffer));
        assert_eq!(scene.call.make(&setting, &mut again), wanted);
        assert_eq!(Contents::of(&again), Contents::of(&buffer));
    }
    requests
}
