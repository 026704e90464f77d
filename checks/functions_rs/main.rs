//! compare COUNT SEED [WORD]: calls each function, or those whose names have a word in them, so many
//! times in both crates. Tells each difference, with its arguments made small, and how many calls there were.
//!
//! A call that takes memory is made again in each crate with one of its requests refused. Refused memory is
//! returned by calls whose request was refused, and by no other.

use copy::harness::{Choices, Function, functions};
use std::collections::HashMap;
use std::alloc::{GlobalAlloc, Layout, System};
use std::panic::{AssertUnwindSafe, catch_unwind};
use twice::words::{COPY, PROVED, Reader, clear};

type Proved = unsafe fn(&mut Reader, &mut Vec<u64>);

/// The system's allocator, but for the request that is refused.
struct Watched;

#[global_allocator]
static ALLOCATOR: Watched = Watched;

// SAFETY: each method hands its arguments to the system's allocator unchanged, or refuses by a null pointer,
// which every caller of an allocator has to expect.
unsafe impl GlobalAlloc for Watched {
    unsafe fn alloc(&self, layout: Layout) -> *mut u8 {
        // SAFETY: the caller's promise is the system allocator's demand.
        if COPY.refuses(layout.size() as u64) { std::ptr::null_mut() } else { unsafe { System.alloc(layout) } }
    }

    unsafe fn realloc(&self, block: *mut u8, layout: Layout, size: usize) -> *mut u8 {
        // SAFETY: every block comes from the system's allocator.
        if COPY.refuses(size as u64) { std::ptr::null_mut() } else { unsafe { System.realloc(block, layout, size) } }
    }

    unsafe fn dealloc(&self, block: *mut u8, layout: Layout) {
        // SAFETY: every block comes from the system's allocator.
        unsafe { System.dealloc(block, layout) }
    }
}

/// How many calls had a request refused, and how many of them told that memory was, in both crates.
#[derive(Default)]
struct Refusals {
    refused: u64,
    told: u64,
}

/// What became of a call.
#[derive(PartialEq)]
enum Outcome {
    /// Both gave the same.
    Same,
    /// The generated function panicked, as it may where its conditions don't hold.
    Panicked,
    Different(String),
}

/// The functions that go on where a request is refused: what calls them refuses.
const GOES_ON: [&str; 1] = ["shapers_hangul::ot_shaper_hangul::rewriting::measure"];

/// Whether a function that returned these words said that memory was refused.
fn tells_memory(function: &Function, output: &[u64]) -> bool {
    !function.memory.is_empty() && output.starts_with(function.memory)
}

/// Makes the call in the copy, whose request of this number is refused; returns whether it returned.
fn is_returned(function: &Function, choices: &mut Choices, refused: u64, words: [&mut Vec<u64>; 2]) -> bool {
    let [input, output] = words;
    COPY.refuse(refused);
    let is_returned = catch_unwind(AssertUnwindSafe(|| (function.call)(choices, input, output))).is_ok();
    COPY.watch(false);
    is_returned
}

/// A call that returned: the numbers that it was drawn by, the words of its arguments, and how many requests
/// each crate made.
struct Made<'a> {
    given: &'a [u64],
    input: &'a [u64],
    requests: [u64; 2],
}

/// Makes the call again with one request of the copy refused, and with one of the proved program; tells what is
/// wrong then.
fn with_refusal(function: &Function, proved: Proved, made: &Made, counts: &mut Refusals) -> Option<String> {
    let lot = made.input.iter().fold(7_u64, |sum, word| sum.wrapping_mul(31).wrapping_add(*word));
    for (crate_, requests) in made.requests.into_iter().enumerate().filter(|(_, requests)| *requests > 0) {
        let (refused, mut output) = (1 + lot % requests, Vec::new());
        let returned = match crate_ {
            0 => is_returned(function, &mut Choices::again(made.given.to_vec()), refused, [&mut Vec::new(), &mut output]),
            _ => {
                clear();
                PROVED.refuse(refused);
                // SAFETY: as in `outcome`: the arguments are the same.
                catch_unwind(AssertUnwindSafe(|| unsafe { proved(&mut Reader(made.input), &mut output) })).is_ok()
            }
        };
        counts.refused += 1;
        counts.told += u64::from(returned && tells_memory(function, &output));
        // (an error that counts before memory may be found behind the refusal)
        let is_refused = returned && output[0] == 1 || function.memory.is_empty() || GOES_ON.contains(&function.name);
        if ![&COPY, &PROVED][crate_].has_refused() || !is_refused {
            return Some(format!("request {refused} of {requests} refused in crate {crate_}: it returned {output:?}"));
        }
    }
    None
}

fn outcome(function: &Function, proved: Proved, choices: &mut Choices, counts: &mut Refusals) -> Outcome {
    let (mut input, mut output, mut again) = (Vec::new(), Vec::new(), Vec::new());
    if !is_returned(function, choices, 0, [&mut input, &mut output]) {
        return match function.is_free && !choices.is_void {
            true => Outcome::Different(format!("input {input:?}, one panicked, and nothing is required")),
            false => Outcome::Panicked,
        };
    }
    let (requests, has_refused) = (COPY.requests(), COPY.has_refused());
    clear();
    PROVED.refuse(0);
    let mut reader = Reader(&input);
    // SAFETY: the generated function returned, so each place that it read or wrote lies in what it was given;
    // the proved one is called with the same.
    let call = AssertUnwindSafe(|| unsafe { proved(&mut reader, &mut again) });
    if catch_unwind(call).is_err() {
        return Outcome::Different(format!("input {input:?}, one returned {output:?}, the proved one panicked"));
    }
    if output == again && reader.0.is_empty() {
        if tells_memory(function, &output) && !(has_refused && PROVED.has_refused()) {
            return Outcome::Different(format!("input {input:?}, both returned that memory is refused, and it wasn't"));
        }
        let made = Made { given: &choices.given, input: &input, requests: [requests, PROVED.requests()] };
        // (a call for each argument that there is isn't drawn, and takes no memory)
        return match with_refusal(function, proved, &made, counts) {
            Some(wrong) if function.whole == 0 => Outcome::Different(format!("input {input:?}, {wrong}")),
            _ => Outcome::Same,
        };
    }
    Outcome::Different(format!("input {input:?}, one returned {output:?}, the proved one {again:?}"))
}

/// Makes the numbers that lead to a difference few and small, and tells the smallest difference found.
fn shrunk(function: &Function, proved: Proved, given: Vec<u64>, told: String) -> String {
    let (mut best, mut told, mut tries) = (given, told, 0);
    loop {
        let before = best.clone();
        for at in (0..best.len()).rev() {
            for change in 0..4 {
                let mut smaller = best.clone();
                match change {
                    0 => smaller.truncate(at),
                    1 => drop(smaller.remove(at)),
                    2 => smaller[at] = 0,
                    _ => smaller[at] /= 2,
                }
                tries += 1;
                if smaller == best || at >= best.len() || tries > 20_000 {
                    break;
                }
                if let Outcome::Different(text) = outcome(function, proved, &mut Choices::again(smaller.clone()), &mut Refusals::default()) {
                    (best, told) = (smaller, text);
                    break;
                }
            }
        }
        if best == before || tries > 20_000 {
            return told;
        }
    }
}

fn main() {
    let words: Vec<String> = std::env::args().collect();
    let number = |i: usize| words.get(i).and_then(|word| word.parse().ok());
    let (count, seed) = (number(1).unwrap_or(1000_u64), number(2).unwrap_or(1_u64));
    let word = words.get(3).cloned().unwrap_or_default();
    std::panic::set_hook(Box::new(|_| {}));
    let proved: HashMap<&str, Proved> = twice::proved::CALLS.iter().copied().collect();
    let (mut calls, mut returned, mut different, mut refusals) = (0, 0, 0, Refusals::default());
    for function in functions().iter().filter(|it| it.name.contains(&word)) {
        let Some(again) = proved.get(function.name) else { continue };
        let mut same = 0;
        let drawn = if function.whole > 0 { function.whole } else { count };
        for i in 0..drawn {
            let mut choices = match function.whole {
                0 => Choices::new(seed.wrapping_mul(0x1_0000_0001).wrapping_add(i)),
                _ => Choices::whole(i),
            };
            calls += 1;
            match outcome(function, *again, &mut choices, &mut refusals) {
                Outcome::Same => same += 1,
                Outcome::Panicked => {}
                Outcome::Different(told) => {
                    different += 1;
                    println!("different: {}: {}", function.name, if function.whole > 0 { told } else { shrunk(function, *again, choices.given, told) });
                    break;
                }
            }
        }
        returned += same;
        println!("{} {same}", function.name);
    }
    // SAFETY: one thread reads what it wrote.
    let hits = unsafe { &*&raw const twice::proved::HITS };
    for ((name, number), _) in twice::proved::ARMS.iter().zip(hits).filter(|(_, hit)| !**hit) {
        println!("unreached: {name}: arm {number}");
    }
    println!("arms {} reached {}", hits.len(), hits.iter().filter(|hit| **hit).count());
    println!("calls {calls} returned {returned} different {different}");
    println!("refusals {} told {}", refusals.refused, refusals.told);
}
