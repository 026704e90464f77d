//! Buffers as C has them. While a call has a buffer, other calls with it, from a callback, are rejected.
use crate::buffer::Buffer;
use crate::status::{Argument, Error, Status};
use core::cell::{Cell, UnsafeCell};
use core::ptr::{NonNull, null_mut};

/// Who has a buffer.
#[derive(Clone, Copy, PartialEq, Eq)]
enum State {
    /// C.
    Free,
    /// A call.
    InCall,
    /// The same, and C has destroyed the buffer: it is freed when the call ends.
    Destroyed,
}

/// `sengadlit_buffer_t`.
pub struct Handle {
    state: Cell<State>,
    // Whether it is the library's, which lends it to a callback: C can't destroy it.
    is_lent: bool,
    error: Cell<Error>,
    // While a call has it, this is that call's alone.
    buffer: UnsafeCell<Buffer>,
}

/// A pointer of C's to a buffer, or null.
#[repr(transparent)]
#[derive(Clone, Copy)]
pub struct Pointer(*mut Handle);

impl Pointer {
    /// A new buffer; null where memory is refused.
    pub fn create() -> Self {
        Pointer::to_new(false)
    }

    fn to_new(is_lent: bool) -> Self {
        let handle = super::boxed(Handle {
            state: Cell::new(State::Free),
            is_lent,
            error: Cell::new(Error::NONE),
            buffer: UnsafeCell::new(Buffer::new()),
        });
        Pointer(handle.map_or(null_mut(), Box::into_raw))
    }

    #[inline]
    fn handle<'a>(self) -> Option<&'a Handle> {
        // SAFETY: the pointer is null or a buffer of this library, which isn't freed before this call ends.
        unsafe { self.0.as_ref() }
    }

    /// Frees the buffer, or leaves that to the call that has it. One that is lent stays.
    pub fn destroy(self) {
        let Some(handle) = self.handle().filter(|handle| !handle.is_lent) else {
            return;
        };
        if handle.state.replace(State::Destroyed) == State::Free {
            // SAFETY: it came from `create`, and neither C nor a call has it any more.
            drop(unsafe { Box::from_raw(self.0) });
        }
    }

    /// That it is C's own buffer, to which it may lend an array.
    fn may_be_lent(self) -> Result<(), Error> {
        match self.handle() {
            Some(handle) if handle.is_lent => Err(Error::argument(Argument::Glyphs)),
            _ => Ok(()),
        }
    }

    /// Makes a call as `call` does, on a buffer of C's own.
    #[inline]
    pub fn call_own<A>(
        self,
        refused: impl FnOnce(Status) -> A,
        call: impl FnOnce(&mut Buffer) -> Result<A, Error>,
    ) -> A {
        self.call(refused, |buffer| {
            self.may_be_lent()?;
            call(buffer)
        })
    }

    /// Why the last call that failed did.
    pub fn error(self) -> Error {
        self.handle()
            .map_or(Error::NONE, |handle| handle.error.get())
    }

    /// Makes a call, which has the buffer until it ends. Where it fails, the error stays in the buffer, which an internal one
    /// leaves empty, and `refused` makes the result of the status.
    #[inline]
    pub fn call<A>(
        self,
        refused: impl FnOnce(Status) -> A,
        call: impl FnOnce(&mut Buffer) -> Result<A, Error>,
    ) -> A {
        let Some(handle) = NonNull::new(self.0) else {
            return refused(Status::Argument);
        };
        match Call::begin(handle) {
            Ok(mut begun) => {
                let ended = call(begun.buffer());
                ended.unwrap_or_else(|error| refused(begun.fail(error)))
            }
            Err(status) => refused(status),
        }
    }

    /// Makes a part of a call that has another buffer on this one, too. An error is the other's: that of text where there is no
    /// buffer, and where another call has this one, or the same call, that it is so.
    pub fn call_other<A>(
        self,
        call: impl FnOnce(&mut Buffer) -> Result<A, Error>,
    ) -> Result<A, Error> {
        let place = NonNull::new(self.0).ok_or_else(|| Error::argument(Argument::Text))?;
        let mut begun = Call::begin(place).map_err(|_| Error::IN_CALL)?;
        call(begun.buffer())
    }

    /// The same for a call that returns a place: null where it fails.
    #[inline]
    pub fn call_for_place<T>(
        self,
        call: impl FnOnce(&mut Buffer) -> Result<*mut T, Error>,
    ) -> *mut T {
        self.call(|_| null_mut(), call)
    }
}

/// A buffer of the library's, which it lends to callbacks.
pub struct Lent(Pointer);

impl Lent {
    /// An empty one; none where memory is refused.
    pub fn create() -> Option<Self> {
        let pointer = Pointer::to_new(true);
        pointer.handle()?;
        Some(Lent(pointer))
    }

    /// What a callback is given. It may use the buffer as C may any, but it can't destroy it.
    pub fn pointer(&self) -> Pointer {
        self.0
    }

    /// The buffer, between callbacks: a call that a callback makes has ended when the callback returns.
    pub fn buffer(&mut self) -> &mut Buffer {
        // SAFETY: it came from `to_new` and lasts until this is dropped; no call has it, C makes none while no callback runs,
        // and this one is borrowed alone.
        unsafe { &mut *(*self.0.0).buffer.get() }
    }
}

impl Drop for Lent {
    fn drop(&mut self) {
        // SAFETY: it came from `to_new`, and neither C nor a call has it any more.
        drop(unsafe { Box::from_raw(self.0.0) });
    }
}

/// A call that has a buffer, until this is dropped.
struct Call(NonNull<Handle>);

impl Call {
    #[inline]
    fn begin(place: NonNull<Handle>) -> Result<Self, Status> {
        // SAFETY: a buffer of this library, which isn't freed before this call ends.
        let handle = unsafe { place.as_ref() };
        if handle.state.get() != State::Free {
            handle.error.set(Error::IN_CALL);
            return Err(Error::IN_CALL.status);
        }
        handle.state.set(State::InCall);
        Ok(Call(place))
    }

    #[inline]
    fn handle(&self) -> &Handle {
        // SAFETY: while this call has the buffer, it isn't freed.
        unsafe { self.0.as_ref() }
    }

    #[inline]
    fn buffer(&mut self) -> &mut Buffer {
        // SAFETY: the state was `Free`, and until this call ends no other begins.
        unsafe { &mut *self.handle().buffer.get() }
    }

    #[cold]
    fn fail(&mut self, error: Error) -> Status {
        if error.status == Status::Internal {
            self.buffer().recover();
        }
        self.handle().error.set(error);
        error.status
    }
}

impl Drop for Call {
    #[inline]
    fn drop(&mut self) {
        if self.handle().state.replace(State::Free) == State::Destroyed {
            // SAFETY: it came from `create`, C has destroyed it, and the call that had it ends here.
            drop(unsafe { Box::from_raw(self.0.as_ptr()) });
        }
    }
}

#[cfg(test)]
mod tests {
    use super::{Lent, Pointer};
    use crate::status::Status;

    fn length(buffer: Pointer) -> Result<usize, Status> {
        buffer.call(Err, |inner| Ok(Ok(inner.text.len())))
    }

    #[test]
    fn a_call_has_its_buffer_alone() {
        let buffer = Pointer::create();
        let ended = buffer.call(Err, |_| Ok(length(buffer)));
        assert_eq!(ended, Err(Status::InCall));
        assert_eq!(buffer.error().status, Status::InCall);
        assert_eq!(length(buffer), Ok(0));
        buffer.destroy();
    }

    #[test]
    fn a_buffer_that_is_destroyed_lasts_until_its_call_ends() {
        let buffer = Pointer::create();
        let ended = buffer.call(Err, |inner| {
            buffer.destroy();
            buffer.destroy();
            inner.set_length(1)?;
            Ok(Ok(inner.text.len()))
        });
        assert_eq!(ended, Ok(1));
    }

    #[test]
    fn what_is_lent_is_used_and_not_destroyed() {
        let mut lent = Lent::create().unwrap();
        let pointer = lent.pointer();
        pointer.destroy();
        assert_eq!(length(pointer), Ok(0));
        let ended = pointer.call(Err, |_| {
            pointer.destroy();
            Ok(length(pointer))
        });
        assert_eq!(ended, Err(Status::InCall));
        assert_eq!(lent.buffer().text.len(), 0);
    }

    #[test]
    fn null_is_no_buffer() {
        let none = Pointer(core::ptr::null_mut());
        assert_eq!(length(none), Err(Status::Argument));
        assert_eq!(none.error().status, Status::Done);
        none.destroy();
    }
}
