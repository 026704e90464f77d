//! The functions of the header, and all that is unsafe: pointers of C as references, calls back, and caught panics.
//!
//! What C promises, and each SAFETY line leans on: a pointer that isn't null is aligned and points to what its type says,
//! for the length that stands beside it, and lasts through the call; objects came from this library and weren't destroyed;
//! no other thread uses the buffer; callbacks are functions of the declared types.
#![allow(unsafe_code)]

mod arrays;
mod buffers;
pub mod callbacks;
mod editing;
#[cfg(feature = "opentype")]
pub mod faces;
pub mod glyphs;
mod handle;
mod hook_calls;
mod messages;
mod names;
pub mod plans;
pub mod shaping;
mod tables;

use crate::encodings::Unit;
use crate::status::{Argument, Error};
use core::ffi::c_int;
use core::mem::{MaybeUninit, forget};
use core::slice;
use std::alloc::{Layout, alloc};
use std::io::{self, Write as _};
use std::panic::{AssertUnwindSafe, catch_unwind};
use std::process::abort;

/// Where C wants a result written; none where the pointer is null.
type Out<'a, T> = Option<&'a mut MaybeUninit<T>>;

/// Writes a result where C wants it.
#[inline]
fn put<T>(to: Out<'_, T>, value: T) {
    if let Some(to) = to {
        to.write(value);
    }
}

/// An array of C's; none where it is null and isn't empty.
///
/// # Safety
///
/// If `first` isn't null, so many things stand there, and nobody writes them as long as the slice is used.
#[inline]
unsafe fn array<'a, T>(first: *const T, length: u32) -> Option<&'a [T]> {
    if length == 0 {
        return Some(&[]);
    }
    if first.is_null() {
        return None;
    }
    // SAFETY: the caller's promise, of a pointer that isn't null.
    Some(unsafe { slice::from_raw_parts(first, length as usize) })
}

/// A text of C's in a buffer of so many units; with the length -1 it ends before the first zero.
///
/// # Safety
///
/// If `first` isn't null, so many units stand there, or some and a zero, and nobody writes them as long as the slice is used.
unsafe fn text<'a, U: Unit>(first: *const U, length: c_int) -> Result<&'a [U], Error> {
    let length = match u32::try_from(length) {
        Ok(length) => length as usize,
        Err(_) if length != -1 => return Err(Error::argument(Argument::Range)),
        Err(_) if first.is_null() => return Err(Error::argument(Argument::Text)),
        // SAFETY: a zero stands there, and each unit before it.
        Err(_) => unsafe { (0..).take_while(|place| *first.add(*place) != U::default()) }.count(),
    };
    if length == 0 {
        return Ok(&[]);
    }
    if first.is_null() {
        return Err(Error::argument(Argument::Text));
    }
    // SAFETY: the caller's promise, of a pointer that isn't null.
    Ok(unsafe { slice::from_raw_parts(first, length) })
}

/// A struct of C's that begins with its own size, which tells how many of its fields the caller knows.
///
/// # Safety
///
/// It is laid out as C's, its first field is its size, a `usize`, and where all other bytes are 0 it is valid.
unsafe trait Growing: Copy {
    /// The size that it had when it was first in the header.
    const LEAST: usize;
}

/// No struct is as large, so that a size that was never set is told from one of a later header.
const MOST_SIZE: usize = 4096;

/// Reads such a struct, whose fields behind what the caller knows are 0. None where the pointer is null, or the size none of it;
/// and where a field that only a later header has isn't 0.
///
/// # Safety
///
/// If `place` isn't null, a size stands there, and it is that of the struct.
unsafe fn grown<T: Growing>(place: *const T) -> Option<T> {
    if place.is_null() {
        return None;
    }
    // SAFETY: the first field is the size.
    let size = unsafe { place.cast::<usize>().read() };
    if size < T::LEAST || size > MOST_SIZE {
        return None;
    }
    let known = size.min(size_of::<T>());
    // SAFETY: the struct has this size, the caller's promise.
    let bytes = unsafe { slice::from_raw_parts(place.cast::<u8>(), size) };
    if bytes[known..].iter().any(|byte| *byte != 0) {
        return None;
    }
    let mut read = MaybeUninit::<T>::zeroed();
    // SAFETY: there is room for what is copied, of C's fields, and zeros are valid behind them (`Growing`).
    unsafe {
        read.as_mut_ptr()
            .cast::<u8>()
            .copy_from_nonoverlapping(bytes.as_ptr(), known);
        Some(read.assume_init())
    }
}

/// Writes such a struct, but for its size, as far as the caller knows its fields; what only a later header has becomes 0. Says
/// whether it did: the pointer isn't null, and the size is one of it.
///
/// # Safety
///
/// If `place` isn't null, a size stands there, and it is that of the struct, which nobody else uses.
unsafe fn put_grown<T: Growing>(place: *mut T, value: T) -> bool {
    if place.is_null() {
        return false;
    }
    // SAFETY: the first field is the size.
    let size = unsafe { place.cast::<usize>().read() };
    if size < T::LEAST || size > MOST_SIZE {
        return false;
    }
    let fields = size.min(size_of::<T>()) - size_of::<usize>();
    // SAFETY: behind the size the struct has room for the fields that are written, and for zeros up to its end.
    unsafe {
        let first = place.cast::<u8>().add(size_of::<usize>());
        let from = (&raw const value).cast::<u8>().add(size_of::<usize>());
        first.copy_from_nonoverlapping(from, fields);
        first
            .add(fields)
            .write_bytes(0, size - size_of::<usize>() - fields);
    }
    true
}

/// A thing on the heap; none where memory is refused.
fn boxed<T>(thing: T) -> Option<Box<T>> {
    const { assert!(size_of::<T>() != 0) };
    // SAFETY: the layout isn't of size 0.
    let place = unsafe { alloc(Layout::new::<T>()) }.cast::<T>();
    if place.is_null() {
        return None;
    }
    // SAFETY: `place` is new, aligned, and has room for a `T`, which is written before the box owns it; it came from the
    // allocator and the layout that the box frees it with.
    unsafe {
        place.write(thing);
        Some(Box::from_raw(place))
    }
}

/// Calls a function of C's, and ends the program where an exception leaves it: no frame of this library is unwound by one.
#[inline]
fn call_back<A>(callback: impl FnOnce() -> A) -> A {
    let returns = Returns;
    let answer = callback();
    forget(returns);
    answer
}

/// What is forgotten when a callback has returned.
struct Returns;

impl Drop for Returns {
    #[cold]
    fn drop(&mut self) {
        let _ = writeln!(io::stderr(), "sengadlit: an exception left a callback");
        abort();
    }
}

/// Makes a call; a panic of it is an internal error.
#[inline]
fn guarded<A>(call: impl FnOnce() -> Result<A, Error>) -> Result<A, Error> {
    catch_unwind(AssertUnwindSafe(call)).unwrap_or(Err(Error::INTERNAL))
}

#[cfg(test)]
mod tests {
    use super::{Growing, array, boxed, grown, guarded, put_grown, text};
    use crate::status::{Argument, Error, Status};

    #[test]
    fn a_panic_is_an_internal_error() {
        let ended: Result<(), Error> = guarded(|| panic!("of the test"));
        assert_eq!(ended.unwrap_err().status, Status::Internal);
        assert_eq!(guarded(|| Ok(7)), Ok(7));
    }

    #[test]
    fn an_array_may_be_null_if_it_is_empty() {
        // SAFETY: the pointers are null, or of an array that lives as long.
        unsafe {
            assert_eq!(array::<u32>(core::ptr::null(), 0), Some(&[][..]));
            assert_eq!(array::<u32>(core::ptr::null(), 1), None);
            assert_eq!(array([7, 8].as_ptr(), 2), Some(&[7, 8][..]));
        }
    }

    #[test]
    fn a_text_ends_at_its_length_or_before_a_zero() {
        let units = [7u16, 8, 0, 9];
        let none = core::ptr::null::<u16>();
        // SAFETY: the pointers are null, or of an array that lives as long and has a zero.
        unsafe {
            assert_eq!(text(units.as_ptr(), -1), Ok(&units[..2]));
            assert_eq!(text(units.as_ptr(), 4), Ok(&units[..]));
            assert_eq!(text(units[2..].as_ptr(), -1), Ok(&[][..]));
            assert_eq!(text(none, 0), Ok(&[][..]));
            assert_eq!(text(none, 1), Err(Error::argument(Argument::Text)));
            assert_eq!(text(none, -1), Err(Error::argument(Argument::Text)));
            assert_eq!(
                text(units.as_ptr(), -2),
                Err(Error::argument(Argument::Range))
            );
        }
    }

    #[derive(Clone, Copy, Debug, PartialEq)]
    #[repr(C)]
    struct Sized {
        size: usize,
        first: u32,
        second: u32,
    }

    // SAFETY: it is C's, and all of it are numbers.
    unsafe impl Growing for Sized {
        const LEAST: usize = size_of::<usize>() + 4;
    }

    // One of a later header.
    #[repr(C)]
    struct Later {
        known: Sized,
        later: u64,
    }

    #[test]
    fn a_struct_has_the_fields_that_its_size_says() {
        let least = size_of::<usize>() + 4;
        let of_size = |size, later: u64| {
            let known = Sized {
                size,
                first: 7,
                second: 8,
            };
            let place = Later { known, later };
            // SAFETY: the sizes are of no more than stands there, or are refused.
            unsafe { grown((&raw const place).cast::<Sized>()) }
        };
        let found = |size, second| {
            Some(Sized {
                size,
                first: 7,
                second,
            })
        };
        assert_eq!(of_size(0, 0), None);
        assert_eq!(of_size(least - 1, 0), None);
        assert_eq!(of_size(least, 1), found(least, 0));
        assert_eq!(of_size(least + 4, 1), found(least + 4, 8));
        assert_eq!(of_size(least + 12, 0), found(least + 12, 8));
        assert_eq!(of_size(least + 12, 1), None);
        assert_eq!(of_size(4097, 0), None);
        assert_eq!(of_size(usize::MAX, 0), None);
        // SAFETY: null.
        assert_eq!(unsafe { grown::<Sized>(core::ptr::null()) }, None);
    }

    #[test]
    fn a_struct_is_written_as_far_as_its_size_says() {
        let least = size_of::<usize>() + 4;
        let of_size = |size| {
            let known = Sized {
                size,
                first: 1,
                second: 2,
            };
            let mut place = Later {
                known,
                later: u64::MAX,
            };
            let value = Sized {
                size: 9,
                first: 7,
                second: 8,
            };
            // SAFETY: the sizes are of no more than stands there, or are refused.
            let is_written = unsafe { put_grown((&raw mut place).cast(), value) };
            assert_eq!(place.known.size, size);
            (
                is_written,
                place.known.first,
                place.known.second,
                place.later,
            )
        };
        assert_eq!(of_size(least - 1), (false, 1, 2, u64::MAX));
        assert_eq!(of_size(least), (true, 7, 2, u64::MAX));
        assert_eq!(of_size(least + 4), (true, 7, 8, u64::MAX));
        assert_eq!(of_size(least + 12), (true, 7, 8, 0));
        assert_eq!(of_size(4097), (false, 1, 2, u64::MAX));
        let value = Sized {
            size: 9,
            first: 7,
            second: 8,
        };
        // SAFETY: null.
        assert!(!unsafe { put_grown(core::ptr::null_mut(), value) });
    }

    #[test]
    fn a_box_holds_its_thing() {
        assert_eq!(boxed([1u64, 2, 3]).as_deref(), Some(&[1, 2, 3]));
    }
}
