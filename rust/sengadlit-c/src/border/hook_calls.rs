//! The hooks.
use super::callbacks::{Font, Tables};
use super::handle::Pointer;
use super::{Out, array, guarded, put};
use crate::buffer::Buffer;
use crate::layout::Bool;
use crate::plan::Plan;
use crate::status::{Argument, Error, Status};
use crate::{hooks, numbers};
use core::ffi::c_uint;
use core::ptr::null;
use sengadlit::buffer::Span;

// Runs a hook.
#[inline]
fn on_buffer(
    plan: Option<&Plan>,
    buffer: Pointer,
    hook: impl FnOnce(&Plan, &mut Buffer) -> Result<Status, Error>,
) -> Status {
    buffer.call(
        |status| status,
        |buffer| {
            let plan = plan.ok_or_else(|| Error::argument(Argument::Plan))?;
            guarded(|| hook(plan, buffer))
        },
    )
}

#[unsafe(no_mangle)]
pub extern "C" fn sengadlit_preprocess_text(
    plan: Option<&Plan>,
    font: Option<&Font>,
    buffer: Pointer,
    vowel_constraints: Out<'_, Bool>,
) -> Status {
    on_buffer(plan, buffer, |plan, buffer| {
        let (status, are_asked) = hooks::preprocess_text(plan, font, buffer)?;
        put(vowel_constraints, Bool::from(are_asked));
        Ok(status)
    })
}

// What composition or decomposition returns.
#[inline]
fn ended(found: Result<Status, Error>, error: Out<'_, Error>) -> Status {
    found.unwrap_or_else(|why| {
        put(error, why);
        why.status
    })
}

#[unsafe(no_mangle)]
pub extern "C" fn sengadlit_decompose(
    plan: Option<&Plan>,
    tables: Option<&Tables>,
    ab: u32,
    a: Out<'_, u32>,
    b: Out<'_, u32>,
    error: Out<'_, Error>,
) -> Status {
    let found = match (plan, &a, &b) {
        (Some(plan), Some(_), Some(_)) => guarded(|| hooks::decompose(plan, tables, ab)),
        (None, _, _) => Err(Error::argument(Argument::Plan)),
        _ => Err(Error::argument(Argument::Result)),
    };
    let written = found.map(|parts| match parts {
        Some(Some((first, second))) => {
            put(a, u32::from(first));
            put(b, u32::from(second));
            Status::Done
        }
        Some(None) => Status::NotFound,
        None => Status::Absent,
    });
    ended(written, error)
}

#[unsafe(no_mangle)]
pub extern "C" fn sengadlit_compose(
    plan: Option<&Plan>,
    tables: Option<&Tables>,
    a: u32,
    b: u32,
    ab: Out<'_, u32>,
    error: Out<'_, Error>,
) -> Status {
    let found = match (plan, &ab) {
        (Some(plan), Some(_)) => guarded(|| hooks::compose(plan, tables, a, b)),
        (None, _) => Err(Error::argument(Argument::Plan)),
        (_, None) => Err(Error::argument(Argument::Result)),
    };
    let written = found.map(|composed| match composed {
        Some(Some(whole)) => {
            put(ab, u32::from(whole));
            Status::Done
        }
        Some(None) => Status::NotFound,
        None => Status::Absent,
    });
    ended(written, error)
}

#[unsafe(no_mangle)]
pub extern "C" fn sengadlit_reorder_marks(
    plan: Option<&Plan>,
    buffer: Pointer,
    start: c_uint,
    end: c_uint,
) -> Status {
    on_buffer(plan, buffer, |plan, buffer| {
        hooks::reorder_marks(plan, buffer, start as usize, end as usize)
    })
}

#[unsafe(no_mangle)]
pub extern "C" fn sengadlit_setup_masks(
    plan: Option<&Plan>,
    tables: Option<&Tables>,
    buffer: Pointer,
) -> Status {
    on_buffer(plan, buffer, |plan, buffer| {
        hooks::setup_masks(plan, tables, buffer)
    })
}

/// # Safety
///
/// The array of spans has the length beside it.
#[unsafe(no_mangle)]
pub unsafe extern "C" fn sengadlit_run_pause(
    plan: Option<&Plan>,
    pause: u32,
    font: Option<&Font>,
    spans: *const Span,
    spans_length: c_uint,
    buffer: Pointer,
    circles: Out<'_, Bool>,
) -> Status {
    on_buffer(plan, buffer, |plan, buffer| {
        // SAFETY: an array of C's with its length.
        let spans = unsafe { array(spans, spans_length) }
            .ok_or_else(|| Error::argument(Argument::Spans))?;
        let are_wanted = hooks::run_pause(plan, pause, font, spans, buffer)?;
        put(circles, Bool::from(are_wanted));
        Ok(Status::Done)
    })
}

#[unsafe(no_mangle)]
pub extern "C" fn sengadlit_spans(
    shaper: u32,
    buffer: Pointer,
    length: Out<'_, c_uint>,
) -> *const Span {
    buffer.call(
        |_| null(),
        |buffer| {
            let shaper =
                numbers::shaper(shaper).ok_or_else(|| Error::argument(Argument::Shaper))?;
            let spans = guarded(|| buffer.find_spans(shaper))?;
            put(length, spans.len() as c_uint);
            Ok(spans.as_ptr())
        },
    )
}

#[unsafe(no_mangle)]
pub extern "C" fn sengadlit_setup_syllables_found(
    plan: Option<&Plan>,
    pause: u32,
    buffer: Pointer,
) -> Status {
    on_buffer(plan, buffer, |plan, buffer| {
        hooks::setup_syllables_found(plan, pause, buffer)
    })
}

#[unsafe(no_mangle)]
pub extern "C" fn sengadlit_setup_syllables_written(
    plan: Option<&Plan>,
    pause: u32,
    buffer: Pointer,
) -> Status {
    on_buffer(plan, buffer, |plan, buffer| {
        hooks::setup_syllables_written(plan, pause, buffer)
    })
}

#[unsafe(no_mangle)]
pub extern "C" fn sengadlit_postprocess_glyphs(
    plan: Option<&Plan>,
    font: Option<&Font>,
    buffer: Pointer,
) -> Status {
    on_buffer(plan, buffer, |plan, buffer| {
        hooks::postprocess_glyphs(plan, font, buffer)
    })
}
