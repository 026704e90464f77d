//! An allocator that refuses a thread's n-th request for memory.

use std::alloc::{GlobalAlloc, Layout, System};
use std::cell::Cell;
use std::ptr::null_mut;

/// The system's allocator, but for the request that a thread wants refused.
pub struct Refusing;

/// What the allocator knows of a thread.
#[derive(Clone, Copy)]
struct Watch {
    is_on: bool,
    requests: usize,
    bytes: usize,
    refused: usize,
}

thread_local! {
    static WATCH: Cell<Watch> = const {
        Cell::new(Watch { is_on: false, requests: 0, bytes: 0, refused: 0 })
    };
}

/// Counts a request of so many bytes, and says whether it is refused.
fn is_refused(size: usize) -> bool {
    let watch = |cell: &Cell<Watch>| {
        let mut watch = cell.get();
        if watch.is_on {
            watch.requests += 1;
            watch.bytes += size;
        }
        cell.set(watch);
        watch.is_on && watch.requests == watch.refused
    };
    WATCH.try_with(watch).unwrap_or(false)
}

/// Makes a call whose request of this number is refused, with 0 none. How many requests there were
/// stands beside what the call returned.
pub fn refusing<R>(refused: usize, call: impl FnOnce() -> R) -> (R, usize) {
    let (returned, watch) = watched(refused, call);
    (returned, watch.requests)
}

/// How many bytes a call requests.
#[allow(dead_code, reason = "not every test asks for bytes")]
pub fn bytes_of(call: impl FnOnce()) -> usize {
    watched(0, call).1.bytes
}

/// Makes a call, and returns what the allocator saw of it.
fn watched<R>(refused: usize, call: impl FnOnce() -> R) -> (R, Watch) {
    WATCH.set(Watch {
        is_on: true,
        requests: 0,
        bytes: 0,
        refused,
    });
    let returned = call();
    let watch = WATCH.get();
    WATCH.set(Watch {
        is_on: false,
        ..watch
    });
    (returned, watch)
}

// SAFETY: each method hands its arguments to the system's allocator unchanged, or refuses by a null
// pointer, which every caller of an allocator has to expect; and it allocates nothing itself.
unsafe impl GlobalAlloc for Refusing {
    unsafe fn alloc(&self, layout: Layout) -> *mut u8 {
        match is_refused(layout.size()) {
            true => null_mut(),
            // SAFETY: the caller's promise is the system allocator's demand.
            false => unsafe { System.alloc(layout) },
        }
    }

    unsafe fn alloc_zeroed(&self, layout: Layout) -> *mut u8 {
        match is_refused(layout.size()) {
            true => null_mut(),
            // SAFETY: the caller's promise is the system allocator's demand.
            false => unsafe { System.alloc_zeroed(layout) },
        }
    }

    unsafe fn realloc(&self, block: *mut u8, layout: Layout, size: usize) -> *mut u8 {
        match is_refused(size) {
            true => null_mut(),
            // SAFETY: every block comes from the system's allocator.
            false => unsafe { System.realloc(block, layout, size) },
        }
    }

    unsafe fn dealloc(&self, block: *mut u8, layout: Layout) {
        // SAFETY: every block comes from the system's allocator.
        unsafe { System.dealloc(block, layout) }
    }
}
