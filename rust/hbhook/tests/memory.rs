//! Each request for memory is refused in turn: the run is refused with `Memory` and prints nothing.

use hbhook::{explain_lines, run_file, run_lines};
use sengadlit::alloc::Global;
use std::alloc::{GlobalAlloc, Layout, System};
use std::cell::Cell;
use std::fs;
use std::path::Path;
use std::ptr;

// The system's allocator, which refuses one request of a thread: the one after so many others.
struct Refusing;

thread_local! {
    static BEFORE_REFUSAL: Cell<Option<usize>> = const { Cell::new(None) };
}

impl Refusing {
    fn refuses(&self) -> bool {
        let before = BEFORE_REFUSAL.get();
        BEFORE_REFUSAL.set(before.and_then(|before| before.checked_sub(1)));
        before == Some(0)
    }
}

// SAFETY: each request is passed on to the system's allocator as it came, or refused with null.
unsafe impl GlobalAlloc for Refusing {
    unsafe fn alloc(&self, layout: Layout) -> *mut u8 {
        if self.refuses() {
            return ptr::null_mut();
        }
        // SAFETY: the caller keeps the conditions of `alloc`, which are the same.
        unsafe { System.alloc(layout) }
    }

    unsafe fn realloc(&self, memory: *mut u8, layout: Layout, size: usize) -> *mut u8 {
        if self.refuses() {
            return ptr::null_mut();
        }
        // SAFETY: the caller keeps the conditions of `realloc`, and all memory is the system's.
        unsafe { System.realloc(memory, layout, size) }
    }

    unsafe fn dealloc(&self, memory: *mut u8, layout: Layout) {
        // SAFETY: the caller keeps the conditions of `dealloc`, and all memory is the system's.
        unsafe { System.dealloc(memory, layout) }
    }
}

#[global_allocator]
static ALLOCATOR: Refusing = Refusing;

// Room for what a run prints and tells, so that the test's own lists never grow.
const ROOM: usize = 1 << 20;

// How a run ended, and whether it made the request that was to be refused.
struct Run {
    was_refused: bool,
    status: u8,
    printed: Vec<u8>,
    told: Vec<u8>,
}

// Runs the lines of a script, which writes to two lists.
type Program = fn(&[u8], &mut Vec<u8>, &mut Vec<u8>) -> u8;

impl Run {
    fn new(program: Program, script: &[u8], refused: usize) -> Self {
        let (mut printed, mut told) = (Vec::with_capacity(ROOM), Vec::with_capacity(ROOM));
        BEFORE_REFUSAL.set(Some(refused));
        let status = program(script, &mut printed, &mut told);
        let was_refused = BEFORE_REFUSAL.take().is_none();
        Run {
            was_refused,
            status,
            printed,
            told,
        }
    }
}

// These scripts of examples/ without their comments, one behind the other.
fn examples(names: &[&str]) -> Vec<u8> {
    let folder = Path::new(env!("CARGO_MANIFEST_DIR")).join("../../examples");
    let mut script = String::new();
    for name in names {
        let file = fs::read_to_string(folder.join(name)).unwrap();
        let lines = file.split_inclusive('\n');
        script.extend(lines.filter(|line| !line.starts_with('#')));
        script += "set positions no\n";
    }
    script.into()
}

// Scripts of each shaper, and more of what lines keep.
fn script() -> Vec<u8> {
    let mut script = examples(&[
        "arabic-stretch.txt",
        "hebrew-letter.txt",
        "indic-left-matra.txt",
        "khmer-coeng-ro.txt",
        "myanmar-kinzi.txt",
        "thai-forms.txt",
        "universal-forms.txt",
    ]);
    script.extend(b"applies 1 2 3\napplies 1 2 3 4\npair 41 300 C0\nstage half 0 9\n");
    script.extend(b"context 0 41 42\ncontext 1 43\nset shaper hebrew\nrun compose 41 300\n");
    script.extend(b"run decompose C0\nrun decompose C1\nrun compose 41 41\nset shaper hangul\n");
    script.extend(b"font 1100 1 1\nfont 1161 2 1\nfont AC00 3 1\ntext 1100 1161\nrun preprocess\n");
    script.extend(b"run masks\ntext 41 0E33\nset shaper thai\nrun preprocess\nrun masks\n");
    script.extend(b"text 41 0E33 C0\nrun text\n");
    script
}

fn run(script: &[u8], printed: &mut Vec<u8>, told: &mut Vec<u8>) -> u8 {
    run_lines(Global, script, printed, told)
}

fn explain(script: &[u8], printed: &mut Vec<u8>, told: &mut Vec<u8>) -> u8 {
    explain_lines(Global, script, printed, told)
}

// Refuses each request of a run in turn, and returns their number.
fn refuse_each(program: Program, script: &[u8], expect: impl Fn(usize, Run)) -> usize {
    let whole = Run::new(program, script, usize::MAX);
    assert_eq!((whole.status, whole.told.as_slice()), (0, &[][..]));
    for refused in 0.. {
        let run = Run::new(program, script, refused);
        if !run.was_refused {
            assert_eq!(run.printed, whole.printed);
            return refused;
        }
        expect(refused, run);
    }
    unreachable!()
}

#[test]
fn runs_end_with_the_refusal() {
    let count = refuse_each(run, &script(), |refused, run| {
        assert_eq!(run.status, 1, "request {refused}");
        assert_eq!(run.told, b"refused: Memory\n", "request {refused}");
        assert!(run.printed.is_empty(), "request {refused}");
    });
    assert!(count > 100, "{count} requests");
}

// A file takes its memory as an input does.
#[test]
fn files_end_with_the_refusal() {
    let script = [b"# a comment\n\n", &script()[..]].concat();
    let as_file: Program = |file, printed, told| run_file(file, printed, told);
    let count = refuse_each(as_file, &script, |refused, run| {
        assert_eq!(run.status, 1, "request {refused}");
        assert_eq!(run.told, b"refused: Memory\n", "request {refused}");
        assert!(run.printed.is_empty(), "request {refused}");
    });
    assert!(count > 100, "{count} requests");
}

#[test]
fn refusals_are_explained() {
    refuse_each(explain, &script(), |refused, run| {
        let told = String::from_utf8(run.told).unwrap();
        assert_eq!(run.status, 1, "request {refused}");
        assert!(told.starts_with("refused: Memory\n"), "request {refused}");
        assert_eq!(told.lines().count(), 2, "request {refused}: {told}");
        assert!(run.printed.is_empty(), "request {refused}");
    });
}
