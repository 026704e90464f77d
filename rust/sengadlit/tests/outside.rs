//! Calls whose conditions don't hold, and fonts and tables whose results change: each call returns,
//! refuses or panics, and none runs forever.

mod common;

use common::buffers::{Contents, Glyphs, copy_of};
use common::fonts::{Changing, LotFont, LotTables, Lots, Steady};
use common::misuse::Misuse;
use common::numbers::Numbers;
use common::watchdog::{caught, in_time};
use std::panic;

/// How many calls are made of each kind of buffer.
const CALLS: u64 = 40_000;

/// What became of calls.
#[derive(Debug, Default)]
struct Counts {
    done: u64,
    refused: u64,
    panicked: u64,
}

/// Makes the call, and counts what becomes of it. Whatever it leaves can be read.
fn play<L: Lots>(misuse: &Misuse, font: &LotFont<L>, tables: &LotTables<L>, counts: &mut Counts) {
    let mut buffer = copy_of(&misuse.buffer);
    match caught(|| misuse.call.make(&misuse.setting(font, tables), &mut buffer)) {
        Ok(Ok(_)) => counts.done += 1,
        Ok(Err(_)) => counts.refused += 1,
        Err(_) => counts.panicked += 1,
    }
    assert!(caught(|| Contents::of(&buffer)).is_ok());
}

/// Makes the calls whose conditions hold, or those whose conditions fail, with these results.
fn play_all<L: Lots>(kind: Glyphs, is_fit: bool, lots: impl Fn(u64) -> L) -> Counts {
    let mut counts = Counts::default();
    for seed in 0..CALLS {
        let misuse = Misuse::random(&mut Numbers::new(seed), kind);
        let (font, tables) = (LotFont(lots(seed)), LotTables(lots(!seed)));
        let setting = misuse.setting(&font, &tables);
        if misuse.call.fits(&setting, &misuse.buffer) == is_fit {
            play(&misuse, &font, &tables, &mut counts);
        }
    }
    counts
}

fn conditions_that_fail(kind: Glyphs) {
    let counts = play_all(kind, false, Steady);
    println!("{kind:?}, conditions that fail: {counts:?}");
    assert!(counts.panicked > 0);
}

fn answers_that_change(kind: Glyphs) {
    let counts = play_all(kind, true, Changing::new);
    println!("{kind:?}, answers that change: {counts:?}");
    assert!(counts.done > CALLS / 4);
}

/// One test, for it silences the panics that it expects.
#[test]
fn whatever_a_caller_does_nothing_hangs() {
    let standard = panic::take_hook();
    panic::set_hook(Box::new(|_| {}));
    let outcome = caught(|| {
        for kind in [Glyphs::Letters, Glyphs::Any] {
            in_time(move || conditions_that_fail(kind));
            in_time(move || answers_that_change(kind));
        }
    });
    panic::set_hook(standard);
    if let Err(reason) = outcome {
        panic::resume_unwind(reason);
    }
}
