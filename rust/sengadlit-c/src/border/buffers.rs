//! Buffers.
use super::arrays::Grow;
use super::handle::Pointer;
use super::plans::UserData;
use super::{Growing, Out, array, grown, put, put_grown, text};
use crate::buffer::{Buffer, Content};
use crate::encodings::Unit;
use crate::layout::{Bool, Properties};
use crate::status::{Argument, Error, Status};
use core::ffi::{c_char, c_int, c_uint};
use core::ops::Range;
use core::ptr::null;
use sengadlit::buffer::{CONTEXT_LENGTH, GlyphInfo, GlyphPosition};

#[unsafe(no_mangle)]
pub extern "C" fn sengadlit_buffer_create() -> Pointer {
    Pointer::create()
}

#[unsafe(no_mangle)]
pub extern "C" fn sengadlit_buffer_destroy(buffer: Pointer) {
    buffer.destroy();
}

#[unsafe(no_mangle)]
pub extern "C" fn sengadlit_buffer_clear_contents(buffer: Pointer) {
    buffer.call(
        |_| (),
        |buffer| {
            buffer.clear();
            Ok(())
        },
    );
}

#[unsafe(no_mangle)]
pub extern "C" fn sengadlit_buffer_reset(buffer: Pointer) {
    buffer.call(
        |_| (),
        |buffer| {
            buffer.reset();
            Ok(())
        },
    );
}

#[unsafe(no_mangle)]
pub extern "C" fn sengadlit_buffer_set_length(buffer: Pointer, length: c_uint) -> *mut GlyphInfo {
    buffer.call_for_place(|buffer| {
        buffer.set_length(length as usize)?;
        Ok(buffer.text.place())
    })
}

#[unsafe(no_mangle)]
pub extern "C" fn sengadlit_buffer_get_glyph_infos(
    buffer: Pointer,
    length: Out<'_, c_uint>,
) -> *mut GlyphInfo {
    buffer.call_for_place(|buffer| {
        put(length, buffer.text.len() as c_uint);
        Ok(buffer.text.place())
    })
}

#[unsafe(no_mangle)]
pub extern "C" fn sengadlit_buffer_get_glyph_positions(
    buffer: Pointer,
    length: Out<'_, c_uint>,
) -> *mut GlyphPosition {
    buffer.call_for_place(|buffer| {
        let positions = buffer.positions().map_err(|_| Error::MEMORY)?;
        put(length, positions.len() as c_uint);
        Ok(positions.as_mut_ptr())
    })
}

#[unsafe(no_mangle)]
pub extern "C" fn sengadlit_buffer_get_length(buffer: Pointer) -> c_uint {
    buffer.call(|_| 0, |buffer| Ok(buffer.text.len() as c_uint))
}

// Where things stand, and how many; null where there are none.
fn place<T>(things: &[T], length: Out<'_, c_uint>) -> *const T {
    put(length, things.len() as c_uint);
    match things {
        [] => null(),
        things => things.as_ptr(),
    }
}

#[unsafe(no_mangle)]
pub extern "C" fn sengadlit_buffer_read_glyphs(
    buffer: Pointer,
    length: Out<'_, c_uint>,
) -> *const GlyphInfo {
    buffer.call(|_| null(), |buffer| Ok(place(buffer.text.glyphs(), length)))
}

#[unsafe(no_mangle)]
pub extern "C" fn sengadlit_buffer_read_positions(
    buffer: Pointer,
    length: Out<'_, c_uint>,
) -> *const GlyphPosition {
    buffer.call(
        |_| null(),
        |buffer| Ok(place(buffer.positions_there(), length)),
    )
}

#[unsafe(no_mangle)]
pub extern "C" fn sengadlit_buffer_get_content_type(buffer: Pointer) -> u32 {
    buffer.call(|_| 0, |buffer| Ok(buffer.content() as u32))
}

#[unsafe(no_mangle)]
pub extern "C" fn sengadlit_buffer_set_content_type(buffer: Pointer, content: u32) -> Status {
    done(buffer, |buffer| {
        let content = Content::from_number(content);
        buffer.set_content(content.ok_or_else(|| Error::argument(Argument::Content))?);
        Ok(())
    })
}

#[unsafe(no_mangle)]
pub extern "C" fn sengadlit_buffer_is_complete(buffer: Pointer) -> Bool {
    buffer.call(|_| 0, |buffer| Ok(buffer.is_complete().into()))
}

#[unsafe(no_mangle)]
pub extern "C" fn sengadlit_buffer_has_all_lookups(buffer: Pointer) -> Bool {
    buffer.call(|_| 0, |buffer| Ok(buffer.has_all_lookups().into()))
}

/// Adds glyphs of another buffer.
#[unsafe(no_mangle)]
pub extern "C" fn sengadlit_buffer_append(
    buffer: Pointer,
    source: Pointer,
    start: c_uint,
    end: c_uint,
) -> Status {
    done(buffer, |buffer| {
        source.call_other(|source| buffer.append(source, start as usize, end as usize))
    })
}

#[unsafe(no_mangle)]
pub extern "C" fn sengadlit_buffer_reverse(buffer: Pointer) -> Status {
    done(buffer, |buffer| buffer.reverse(0, buffer.text.len()))
}

#[unsafe(no_mangle)]
pub extern "C" fn sengadlit_buffer_reverse_range(
    buffer: Pointer,
    start: c_uint,
    end: c_uint,
) -> Status {
    done(buffer, |buffer| {
        buffer.reverse(start as usize, end as usize)
    })
}

#[unsafe(no_mangle)]
pub extern "C" fn sengadlit_buffer_reverse_clusters(buffer: Pointer) -> Status {
    done(buffer, |buffer| {
        buffer.reverse_clusters();
        Ok(())
    })
}

#[cfg(feature = "opentype")]
#[unsafe(no_mangle)]
pub extern "C" fn sengadlit_buffer_guess_properties(buffer: Pointer) -> Status {
    done(buffer, Buffer::guess)
}

#[unsafe(no_mangle)]
pub extern "C" fn sengadlit_buffer_get_grow_func(
    buffer: Pointer,
    user_data: Out<'_, UserData>,
) -> Option<Grow> {
    buffer.call(
        |_| None,
        |buffer| {
            let (grow, given) = buffer.text.grow_func();
            put(user_data, given);
            Ok(grow)
        },
    )
}

#[unsafe(no_mangle)]
pub extern "C" fn sengadlit_buffer_set_grow_func(
    buffer: Pointer,
    grow: Option<Grow>,
    user_data: UserData,
) -> Status {
    buffer.call_own(
        |status| status,
        |buffer| {
            buffer.text.set_grow(grow, user_data);
            Ok(Status::Done)
        },
    )
}

/// # Safety
///
/// The array has room for so many glyphs, all of which are written.
#[unsafe(no_mangle)]
pub unsafe extern "C" fn sengadlit_buffer_lend(
    buffer: Pointer,
    glyphs: *mut GlyphInfo,
    length: c_uint,
    allocated: c_uint,
) -> Status {
    buffer.call_own(
        |status| status,
        |buffer| {
            // SAFETY: an array of C's with its lengths.
            unsafe {
                buffer
                    .text
                    .lend_array(glyphs, length as usize, allocated as usize)
            }?;
            buffer.set_content(Content::Unknown);
            buffer.clear_positions();
            Ok(Status::Done)
        },
    )
}

#[unsafe(no_mangle)]
pub extern "C" fn sengadlit_buffer_give_back(
    buffer: Pointer,
    length: Out<'_, c_uint>,
    allocated: Out<'_, c_uint>,
) -> *mut GlyphInfo {
    buffer.call_for_place(|buffer| {
        let (glyphs, found, room) = buffer.take_array()?;
        put(length, found as c_uint);
        put(allocated, room as c_uint);
        Ok(glyphs)
    })
}

#[unsafe(no_mangle)]
pub extern "C" fn sengadlit_buffer_merge_clusters(
    buffer: Pointer,
    start: c_uint,
    end: c_uint,
) -> Status {
    done(buffer, |buffer| {
        buffer.merge_clusters(start as usize, end as usize)
    })
}

#[unsafe(no_mangle)]
pub extern "C" fn sengadlit_buffer_unsafe_to_break(
    buffer: Pointer,
    start: c_uint,
    end: c_uint,
) -> Status {
    done(buffer, |buffer| {
        buffer.unsafe_to_break(start as usize, end as usize)
    })
}

// A call that fails or is done.
fn done(buffer: Pointer, call: impl FnOnce(&mut Buffer) -> Result<(), Error>) -> Status {
    buffer.call(
        |status| status,
        |buffer| {
            call(buffer)?;
            Ok(Status::Done)
        },
    )
}

// SAFETY: it is C's, its size comes first, and all of it are numbers.
unsafe impl Growing for Properties {
    const LEAST: usize = size_of::<Self>();
}

/// # Safety
///
/// The struct is C's, with its size.
#[unsafe(no_mangle)]
pub unsafe extern "C" fn sengadlit_buffer_set_properties(
    buffer: Pointer,
    properties: *const Properties,
) -> Status {
    // SAFETY: the caller's promise.
    let properties = unsafe { grown(properties) };
    done(buffer, |buffer| match &properties {
        Some(properties) => buffer.set_properties(properties),
        None => Err(Error::argument(Argument::Properties)),
    })
}

/// # Safety
///
/// The struct is C's, with its size.
#[unsafe(no_mangle)]
pub unsafe extern "C" fn sengadlit_buffer_get_properties(
    buffer: Pointer,
    properties: *mut Properties,
) -> Status {
    done(buffer, |buffer| {
        // SAFETY: the caller's promise.
        if unsafe { put_grown(properties, buffer.properties()) } {
            Ok(())
        } else {
            Err(Error::argument(Argument::Properties))
        }
    })
}

// Writes characters to an array of C's that has room for those of a context, and how many they are.
fn put_context(to: Out<'_, [u32; CONTEXT_LENGTH]>, length: Out<'_, c_uint>, characters: &[char]) {
    put(length, characters.len() as c_uint);
    let mut written = [0; CONTEXT_LENGTH];
    for (to, character) in written.iter_mut().zip(characters) {
        *to = u32::from(*character);
    }
    put(to, written);
}

#[unsafe(no_mangle)]
pub extern "C" fn sengadlit_buffer_get_context(
    buffer: Pointer,
    before: Out<'_, [u32; CONTEXT_LENGTH]>,
    before_length: Out<'_, c_uint>,
    after: Out<'_, [u32; CONTEXT_LENGTH]>,
    after_length: Out<'_, c_uint>,
) -> Status {
    done(buffer, |buffer| {
        let (pre, post) = buffer.text.contexts();
        put_context(before, before_length, pre);
        put_context(after, after_length, post);
        Ok(())
    })
}

/// # Safety
///
/// The arrays have the lengths beside them.
#[unsafe(no_mangle)]
pub unsafe extern "C" fn sengadlit_buffer_set_context(
    buffer: Pointer,
    before: *const u32,
    before_length: c_uint,
    after: *const u32,
    after_length: c_uint,
) -> Status {
    // SAFETY: an array of C's with its length.
    let before = unsafe { array(before, before_length) };
    // SAFETY: an array of C's with its length.
    let after = unsafe { array(after, after_length) };
    done(buffer, |buffer| match (before, after) {
        (Some(before), Some(after)) => buffer.set_context(before, after),
        _ => Err(Error::argument(Argument::Context)),
    })
}

#[unsafe(no_mangle)]
pub extern "C" fn sengadlit_buffer_add(buffer: Pointer, unicode: u32, cluster: c_uint) -> Status {
    done(buffer, |buffer| buffer.push(unicode, cluster))
}

// The item of a text of so many units that begins at a place and has a length, with -1 all that is left.
fn item(text_length: usize, offset: c_uint, length: c_int) -> Result<Range<usize>, Error> {
    let start = offset as usize;
    let end = match usize::try_from(length) {
        Ok(length) => start.checked_add(length),
        Err(_) if length == -1 => Some(text_length),
        Err(_) => None,
    };
    let item = end.map(|end| start..end);
    let item = item.filter(|item| item.start <= item.end && item.end <= text_length);
    item.ok_or_else(|| Error::argument(Argument::Range))
}

// Adds an item of a text.
//
// # Safety
//
// The text has the length beside it, or ends with a zero.
unsafe fn add<U: Unit>(
    buffer: Pointer,
    first: *const U,
    text_length: c_int,
    item_offset: c_uint,
    item_length: c_int,
) -> Status {
    done(buffer, |buffer| {
        // SAFETY: a text of C's with its length, or one that ends with a zero.
        let units = unsafe { text(first, text_length) }?;
        let item = item(units.len(), item_offset, item_length)?;
        buffer.add(units, item)
    })
}

/// # Safety
///
/// The text has the length beside it, or ends with a zero.
#[unsafe(no_mangle)]
pub unsafe extern "C" fn sengadlit_buffer_add_utf8(
    buffer: Pointer,
    text: *const c_char,
    text_length: c_int,
    item_offset: c_uint,
    item_length: c_int,
) -> Status {
    // SAFETY: the caller's promise.
    unsafe {
        add(
            buffer,
            text.cast::<u8>(),
            text_length,
            item_offset,
            item_length,
        )
    }
}

/// # Safety
///
/// The text has the length beside it, or ends with a zero.
#[unsafe(no_mangle)]
pub unsafe extern "C" fn sengadlit_buffer_add_utf16(
    buffer: Pointer,
    text: *const u16,
    text_length: c_int,
    item_offset: c_uint,
    item_length: c_int,
) -> Status {
    // SAFETY: the caller's promise.
    unsafe { add(buffer, text, text_length, item_offset, item_length) }
}

/// # Safety
///
/// The text has the length beside it, or ends with a zero.
#[unsafe(no_mangle)]
pub unsafe extern "C" fn sengadlit_buffer_add_utf32(
    buffer: Pointer,
    text: *const u32,
    text_length: c_int,
    item_offset: c_uint,
    item_length: c_int,
) -> Status {
    // SAFETY: the caller's promise.
    unsafe { add(buffer, text, text_length, item_offset, item_length) }
}

#[unsafe(no_mangle)]
pub extern "C" fn sengadlit_buffer_set_state(buffer: Pointer, state: c_uint) {
    buffer.call(
        |_| (),
        |buffer| {
            buffer.set_state(state);
            Ok(())
        },
    );
}

#[unsafe(no_mangle)]
pub extern "C" fn sengadlit_buffer_get_state(buffer: Pointer) -> c_uint {
    buffer.call(|_| 0, |buffer| Ok(buffer.state()))
}

#[unsafe(no_mangle)]
pub extern "C" fn sengadlit_buffer_get_error(buffer: Pointer, error: Out<'_, Error>) {
    put(error, buffer.error());
}
