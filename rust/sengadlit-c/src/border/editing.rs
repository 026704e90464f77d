//! Carets and edits.
use super::handle::Pointer;
use super::{Out, array, guarded, put};
use crate::layout::Unaffected;
use crate::status::{Argument, Error, Status};
use crate::{hooks, numbers};
use core::ffi::c_uint;
use core::ptr::null;
use sengadlit::buffer::Span;

#[unsafe(no_mangle)]
pub extern "C" fn sengadlit_caret_stops(
    buffer: Pointer,
    direction: u32,
    length: Out<'_, c_uint>,
) -> *const u32 {
    buffer.call(
        |_| null(),
        |buffer| {
            let direction = numbers::direction(direction)
                .ok_or_else(|| Error::argument(Argument::Direction))?;
            let stops = guarded(|| buffer.find_stops(direction))?;
            put(length, stops.len() as c_uint);
            Ok(stops.as_ptr())
        },
    )
}

/// # Safety
///
/// The arrays have the lengths beside them.
#[unsafe(no_mangle)]
pub unsafe extern "C" fn sengadlit_affected(
    before: *const Span,
    before_length: c_uint,
    after: *const Span,
    after_length: c_uint,
    front: c_uint,
    back: c_uint,
    unaffected: Out<'_, Unaffected>,
    error: Out<'_, Error>,
) -> Status {
    // SAFETY: an array of C's with its length.
    let before = unsafe { array(before, before_length) };
    // SAFETY: an array of C's with its length.
    let after = unsafe { array(after, after_length) };
    let found = match (before, after, &unaffected) {
        (Some(before), Some(after), Some(_)) => {
            guarded(|| hooks::affected(before, after, front, back))
        }
        (_, _, None) => Err(Error::argument(Argument::Result)),
        _ => Err(Error::argument(Argument::Spans)),
    };
    match found {
        Ok(found) => {
            put(unaffected, found);
            Status::Done
        }
        Err(why) => {
            put(error, why);
            why.status
        }
    }
}
