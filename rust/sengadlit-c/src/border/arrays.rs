//! Arrays of C's in which a text works, until C takes them back.
use super::plans::UserData;
use super::{boxed, call_back};
use core::cell::Cell;
use core::ffi::c_uint;
use core::ptr::{NonNull, null_mut};
use sengadlit::alloc::Vec as List;
use sengadlit::buffer::GlyphInfo;
use sengadlit_lists::vec::{Growth, Lender, Vec as Borrowed};

/// `sengadlit_grow_func_t`.
pub type Grow =
    unsafe extern "C-unwind" fn(UserData, *mut GlyphInfo, c_uint, *mut c_uint) -> *mut GlyphInfo;

/// The array that C lends, which stays in its place for the list that works in it.
pub struct Array(NonNull<Record>);

struct Record {
    first: Cell<NonNull<GlyphInfo>>,
    room: Cell<usize>,
    // Whether C lends one.
    is_lent: Cell<bool>,
    // Whether a list works in it.
    is_used: Cell<bool>,
    grow: Cell<(Option<Grow>, UserData)>,
}

impl Array {
    /// None yet; nothing where memory is refused.
    pub fn new() -> Option<Self> {
        let record = boxed(Record {
            first: Cell::new(NonNull::dangling()),
            room: Cell::new(0),
            is_lent: Cell::new(false),
            is_used: Cell::new(false),
            grow: Cell::new((None, null_mut())),
        })?;
        Some(Array(NonNull::from(Box::leak(record))))
    }

    #[inline]
    fn record(&self) -> &Record {
        // SAFETY: it came from a box, and is freed when this is dropped.
        unsafe { self.0.as_ref() }
    }

    /// Takes the function by which the array grows.
    pub fn set_grow(&self, grow: (Option<Grow>, UserData)) {
        self.record().grow.set(grow);
    }

    /// Whether C lends an array.
    #[inline]
    pub fn is_lent(&self) -> bool {
        self.record().is_lent.get()
    }

    /// Whether a list works in it.
    #[inline]
    pub fn is_used(&self) -> bool {
        self.record().is_used.get()
    }

    /// Where it is.
    #[inline]
    pub fn first(&self) -> *mut GlyphInfo {
        self.record().first.get().as_ptr()
    }

    /// The same, as C has it: null where C lent null.
    #[inline]
    pub fn given(&self) -> *mut GlyphInfo {
        self.record().given()
    }

    /// How many glyphs it has room for.
    #[inline]
    pub fn room(&self) -> usize {
        self.record().room.get()
    }

    /// Takes an array of C's; a null one has no room.
    #[inline]
    pub fn lend(&self, first: *mut GlyphInfo, room: usize) {
        let record = self.record();
        record
            .first
            .set(NonNull::new(first).unwrap_or(NonNull::dangling()));
        record.room.set(room);
        record.is_lent.set(true);
    }

    /// Leaves it to C.
    #[inline]
    pub fn give_back(&self) {
        self.record().is_lent.set(false);
    }

    /// A list in the array, of the first glyphs that it has.
    ///
    /// # Safety
    ///
    /// C lends the array, which has room for them; no other list works in it, and this one is dropped before C has the array
    /// again and before `self` is.
    #[inline]
    pub unsafe fn list(&self, len: usize) -> List<GlyphInfo> {
        let record = self.record();
        record.is_used.set(true);
        let lender: NonNull<dyn Lender> = self.0;
        let (first, room) = (record.first.get(), record.room.get());
        // SAFETY: the caller's promise, and C's: the array has this room, and C leaves it alone while a call has the buffer.
        List::from(unsafe { Borrowed::borrowed(lender, first, len, room) })
    }

    /// Writes glyphs that stand elsewhere.
    ///
    /// # Safety
    ///
    /// C lends the array, which has room for them, and no list works in it.
    pub unsafe fn write(&self, glyphs: &[GlyphInfo]) {
        // SAFETY: the caller's promise.
        unsafe {
            self.first()
                .copy_from_nonoverlapping(glyphs.as_ptr(), glyphs.len());
        }
    }
}

impl Drop for Array {
    fn drop(&mut self) {
        // SAFETY: it came from a box, and no list works in the array any more.
        drop(unsafe { Box::from_raw(self.0.as_ptr()) });
    }
}

impl Record {
    #[inline]
    fn given(&self) -> *mut GlyphInfo {
        let first = self.first.get();
        if first == NonNull::dangling() {
            null_mut()
        } else {
            first.as_ptr()
        }
    }
}

// SAFETY: the array is where C's function says, with the room that it says, which is tested to be enough for the text.
unsafe impl Lender for Record {
    fn grow(&self, len: usize, wanted: usize) -> Growth {
        let (Some(grow), user_data) = self.grow.get() else {
            return Growth::Own;
        };
        let Ok(wanted) = c_uint::try_from(wanted) else {
            return Growth::Refused;
        };
        let mut room = self.room.get() as c_uint;
        let first = self.given();
        // SAFETY: a callback of C, with the array that it lends and room for a number.
        let first = call_back(|| unsafe { grow(user_data, first, wanted, &mut room) });
        let room = room as usize;
        let Some(first) = NonNull::new(first).filter(|_| room >= len) else {
            return Growth::Refused;
        };
        self.first.set(first);
        self.room.set(room);
        Growth::Array(first.cast(), room)
    }

    #[inline]
    fn end(&self) {
        self.is_used.set(false);
    }
}
