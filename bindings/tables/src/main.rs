//! Compares what `sengadlit` says of all code points with the tables of HarfRust 0.12.0, rustybuzz 0.18.0 and HarfBuzz, and
//! the C library's decoder of texts with HarfBuzz's.
//!
//! `tables REASONS [HARFBUZZ]`: HARFBUZZ is the program of dump.cc, without which HarfBuzz isn't compared. REASONS lists what
//! differs and why: a line `LIBRARY: reason`, below it by two spaces lines of a property, and below these by four spaces
//! ranges. A property of a library fails where something differs without being listed, or is listed and doesn't differ. The
//! last line is 'N passed, M failed'.

mod rows;
mod shapers;
mod texts;

include!(concat!(env!("OUT_DIR"), "/crates.rs"));

use rows::{CODE_POINTS, Library, PROPERTIES, crates, harfbuzz};
use shapers::{CASES, SCRIPTS, code};
use std::collections::BTreeSet;
use std::ops::RangeInclusive;
use std::{env, fs};

// Of the pairs and of scripts, as two properties more.
const COMPOSITION: &str = "composition";
const SHAPER: &str = "shaper";

// What differs: code points, or of compositions pairs, or of shapers the codes of scripts.
type Places = BTreeSet<u64>;

fn place((a, b): (u32, u32)) -> u64 {
    u64::from(a) << 32 | u64::from(b)
}

// Lines of a file of reasons.
struct Reason {
    library: String,
    reason: String,
    property: String,
    places: Places,
}

fn number(text: &str) -> u64 {
    u64::from_str_radix(text, 16).unwrap_or_else(|fault| panic!("{text}: {fault}"))
}

// `0C55`, `1ACF..1ADD`, or a pair `105D2+0307`, whose first may be a range with the step 28; of shapers `Gara`.
fn places_of(property: &str, field: &str) -> Vec<u64> {
    if property == SHAPER {
        return vec![field.bytes().fold(0, |code, letter| code << 8 | u64::from(letter))];
    }
    let range = |text: &str| -> RangeInclusive<u64> {
        let (first, last) = text.split_once("..").unwrap_or((text, text));
        number(first)..=number(last)
    };
    match field.split_once('+') {
        Some((firsts, second)) => range(firsts).step_by(28).map(|a| a << 32 | number(second)).collect(),
        None => range(field).collect(),
    }
}

fn reasons(text: &str) -> Vec<Reason> {
    let mut reasons: Vec<Reason> = Vec::new();
    let mut heading = ("", "");
    for line in text.lines().filter(|line| !line.is_empty() && !line.starts_with('#')) {
        if let Some(ranges) = line.strip_prefix("    ") {
            let reason = reasons.last_mut().expect("a property comes before");
            reason.places.extend(ranges.split(' ').flat_map(|field| places_of(&reason.property, field)));
        } else if let Some(property) = line.strip_prefix("  ") {
            let (library, reason) = heading;
            let [library, reason, property] = [library, reason, property].map(str::to_owned);
            reasons.push(Reason { library, reason, property, places: Places::new() });
        } else {
            heading = line.split_once(": ").unwrap_or_else(|| panic!("no reason: {line}"));
        }
    }
    reasons
}

// How many of a property were compared, and those that differ.
struct Compared {
    property: &'static str,
    count: u64,
    differ: Places,
}

fn compare(ours: &Library, theirs: &Library, pairs: &[(u32, u32)]) -> Vec<Compared> {
    let mut all = Vec::new();
    for (i, property) in PROPERTIES.into_iter().enumerate() {
        let rows = ours.rows.iter().zip(&theirs.rows).zip(0..);
        let both = rows.filter_map(|((ours, theirs), u)| Some((ours[i]?, theirs[i]?, u)));
        let both: Vec<(u64, u64, u64)> = both.collect();
        let differ = both.iter().filter(|(ours, theirs, _)| ours != theirs).map(|(_, _, u)| *u).collect();
        all.push(Compared { property, count: both.len() as u64, differ });
    }
    let both = ours.composed.iter().zip(&theirs.composed).zip(pairs);
    let differ = both.filter(|((ours, theirs), _)| ours != theirs).map(|(_, pair)| place(*pair)).collect();
    all.push(Compared { property: COMPOSITION, count: pairs.len() as u64, differ });
    let cases = ours.shapers.chunks(CASES).zip(theirs.shapers.chunks(CASES)).zip(0..);
    let differ = cases.filter(|((ours, theirs), _)| ours != theirs);
    let differ = differ.map(|(_, script)| u64::from(u32::from_be_bytes(code(script)))).collect();
    all.push(Compared { property: SHAPER, count: SCRIPTS as u64, differ });
    all
}

// Prints what stands in one of the two sets alone, the first of it; whether something does.
fn tell(library: &str, property: &str, listed: &Places, differ: &Places) -> bool {
    let unlisted: Vec<_> = differ.difference(listed).take(20).collect();
    let same: Vec<_> = listed.difference(differ).take(20).collect();
    if !unlisted.is_empty() {
        println!("FAILED: {library}, {property}: {unlisted:04X?} differ without a reason");
    }
    if !same.is_empty() {
        println!("FAILED: {library}, {property}: {same:04X?} don't differ");
    }
    !unlisted.is_empty() || !same.is_empty()
}

// Compares with a library; how many properties passed and failed.
fn check(ours: &Library, theirs: &Library, pairs: &[(u32, u32)], reasons: &[Reason]) -> (u64, u64) {
    let (mut passed, mut failed, mut all, mut differing) = (0, 0, 0, 0);
    for compared in compare(ours, theirs, pairs) {
        let of_both = |reason: &&Reason| reason.library == theirs.name && reason.property == compared.property;
        let of_property = || reasons.iter().filter(of_both);
        let listed: Places = of_property().flat_map(|reason| reason.places.iter().copied()).collect();
        let is_wrong = tell(theirs.name, compared.property, &listed, &compared.differ);
        for reason in of_property() {
            println!("{}, {}, {}: {}", theirs.name, compared.property, reason.places.len(), reason.reason);
        }
        differing += compared.differ.len();
        all += compared.count;
        failed += u64::from(is_wrong);
        passed += u64::from(!is_wrong);
    }
    println!("{}: {differing} of {all} values differ", theirs.name);
    (passed, failed)
}

fn main() {
    let mut arguments = env::args().skip(1);
    let path = arguments.next().expect("the first argument is the file of reasons");
    let reasons = reasons(&fs::read_to_string(&path).unwrap_or_else(|fault| panic!("{path}: {fault}")));
    let (mut libraries, pairs) = crates();
    let program = arguments.next();
    libraries.extend(program.iter().map(|program| harfbuzz(program, &pairs)));
    let (ours, others) = libraries.split_first().expect("ours comes first");
    println!("{CODE_POINTS} code points, {} pairs", pairs.len());
    let (mut passed, mut failed) = (0, 0);
    for theirs in others {
        let (more, wrong) = check(ours, theirs, &pairs, &reasons);
        passed += more;
        failed += wrong;
    }
    if let Some((more, wrong)) = program.as_deref().map(texts::compare) {
        passed += more;
        failed += wrong;
    }
    println!("{passed} passed, {failed} failed");
    std::process::exit(i32::from(failed != 0 || passed == 0));
}
