//! The random scripts that the programs are compared on: they end in each way, and run each hook and
//! pause to its end.

use sengadlit_tests::End;
use sengadlit_tests::scripts::script;
use std::collections::BTreeMap;
use std::sync::LazyLock;

/// How many scripts are run.
const SCRIPTS: u64 = 8_000;

/// What the scripts did: how many ended how, and how many ran each hook and pause to its end.
struct Tally {
    ends: BTreeMap<String, usize>,
    runs: BTreeMap<String, usize>,
}

impl Tally {
    /// Runs all scripts.
    fn of_all() -> Self {
        let mut tally = Tally {
            ends: BTreeMap::new(),
            runs: BTreeMap::new(),
        };
        for seed in 0..SCRIPTS {
            let script = script(seed);
            tally.add(&script, End::of(script.as_bytes()));
        }
        tally
    }

    fn add(&mut self, script: &str, end: End) {
        let message = String::from_utf8(end.told).unwrap();
        let reason = message.rsplit(' ').next().unwrap().trim_end();
        let end_name = format!("{} {reason}", end.status);
        *self.ends.entry(end_name).or_default() += 1;
        if end.status == 0 {
            for line in script.lines().filter(|line| line.starts_with("run ")) {
                *self.runs.entry(name_of_run(line)).or_default() += 1;
            }
        }
    }
}

/// The hook that a line runs, or the pause.
fn name_of_run(line: &str) -> String {
    let words = line.split(' ').skip(1);
    let is_pause = line.starts_with("run pause");
    let name: Vec<_> = words.take(if is_pause { 2 } else { 1 }).collect();
    name.join(" ")
}

/// The scripts are run once, for both tests.
static TALLY: LazyLock<Tally> = LazyLock::new(Tally::of_all);

#[test]
fn scripts_end_in_each_way() {
    let ends = &TALLY.ends;
    println!("{ends:?}");
    assert!(ends["0 "] > SCRIPTS as usize / 2);
    for refusal in [
        "TooLong",
        "UnknownSyllable",
        "SpansDontCover",
        "StretchOverflow",
    ] {
        assert!(ends.contains_key(&format!("1 {refusal}")), "{refusal}");
    }
}

/// Each hook and pause is run to its end by many scripts.
#[test]
fn scripts_reach_every_hook() {
    let runs = &TALLY.runs;
    println!("{runs:?}");
    assert_eq!(runs.len(), 7 + 15);
    assert!(runs.values().all(|count| *count > 60));
}
