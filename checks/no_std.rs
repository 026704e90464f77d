//! A library without `std` that links the crate: it brings what `std` would bring, so that it doesn't
//! compile where the crate links `std` after all.
#![no_std]

use core::alloc::{GlobalAlloc, Layout};
use core::panic::PanicInfo;
use core::ptr::null_mut;
use sengadlit::alloc::Global;
use sengadlit::{Buffer, GlyphInfo};

/// An allocator that refuses every request.
struct NoMemory;

// SAFETY: it hands out no block.
unsafe impl GlobalAlloc for NoMemory {
    unsafe fn alloc(&self, _layout: Layout) -> *mut u8 {
        null_mut()
    }

    unsafe fn dealloc(&self, _block: *mut u8, _layout: Layout) {}
}

#[global_allocator]
static ALLOCATOR: NoMemory = NoMemory;

#[panic_handler]
fn stop(_info: &PanicInfo) -> ! {
    loop {}
}

/// Whether a buffer without memory refuses a glyph.
pub fn refuses() -> bool {
    Buffer::new(Global, 1).push(GlyphInfo::DEFAULT).is_err()
}
