//! The program's library with each of its requests for memory refused in turn: a run ends with the
//! refusal, or as it ends without one.

#[path = "../../sengadlit/tests/memory/allocator.rs"]
mod allocator;

use allocator::{Refusing, refusing};
use sengadlit::alloc::Global;
use sengadlit_tests::End;
use sengadlit_tests::scripts::script;

#[global_allocator]
static ALLOCATOR: Refusing = Refusing;

/// How many scripts are run.
const SCRIPTS: u64 = 60;

/// How a run ends whose request of this number is refused, with 0 none, and how many there were. The
/// lists that are written to have room, so that the requests are the library's.
fn run(script: &[u8], refused: usize) -> (End, usize) {
    let (mut printed, mut told) = (Vec::with_capacity(1 << 16), Vec::with_capacity(1 << 10));
    let (status, requests) = refusing(refused, || {
        hbhook::run_lines(Global, script, &mut printed, &mut told)
    });
    let end = End {
        status,
        printed,
        told,
    };
    (end, requests)
}

#[test]
fn each_request_of_a_run_may_be_refused() {
    let memory = End {
        status: 1,
        printed: Vec::new(),
        told: b"refused: Memory\n".to_vec(),
    };
    let (mut refused, mut unmoved) = (0, 0);
    for seed in 0..SCRIPTS {
        let script = script(seed);
        let (wanted, requests) = run(script.as_bytes(), 0);
        for request in 1..=requests {
            let (end, _) = run(script.as_bytes(), request);
            assert!(
                end == memory || end == wanted,
                "seed {seed}, request {request}: {end:?}"
            );
            *if end == memory {
                &mut refused
            } else {
                &mut unmoved
            } += 1;
        }
    }
    println!("{refused} runs end with the refusal, {unmoved} as without one");
    assert!(refused > 1000 && unmoved < refused / 10);
}
