//! A list in memory of its own, which is that of Rust's list, or in an array that it borrows.
//!
//! All that is unsafe rests on these:
//! - At `first` there is room for `capacity` items, of which the first `len` are written.
//! - Without a lender these are the parts of a list of Rust's.
//! - With a lender they are those of its array, until the list ends the loan. The items are `Copy` then, so that one that is
//!   left behind in the array is nothing lost.
use core::fmt;
use core::hash::{Hash, Hasher};
use core::marker::PhantomData;
use core::mem::{self, ManuallyDrop, MaybeUninit};
use core::ptr::{self, NonNull};
use core::slice;
use rust_alloc::vec::Vec as Own;

/// Who lends an array to a list.
///
/// # Safety
///
/// What `grow` returns is true, the place is that of items, and it has room for the first `len`.
pub unsafe trait Lender {
    /// Makes room for so many items in the array, the first `len` of which are there, as `realloc` does.
    fn grow(&self, len: usize, wanted: usize) -> Growth;

    /// The list is done with the array.
    fn end(&self);
}

/// What became of an array that was to grow.
#[derive(Debug)]
pub enum Growth {
    /// It is here, has room for so many items, which may be fewer than wanted but aren't fewer than it has, and begins with
    /// those.
    Array(NonNull<u8>, usize),
    /// It is as it was, and so is the list.
    Refused,
    /// It can't grow: the list takes memory of its own.
    Own,
}

/// Memory was refused.
#[derive(Clone, Copy, Debug, PartialEq, Eq)]
pub struct Refused;

/// A growable list, as Rust's own, in its own memory or in an array that it borrows.
pub struct Vec<T> {
    first: NonNull<T>,
    len: usize,
    capacity: usize,
    lender: Option<NonNull<dyn Lender>>,
    items: PhantomData<T>,
}

// SAFETY: the list owns its items; by the condition of `borrowed` its lender may be called on each thread that has the list.
unsafe impl<T: Send> Send for Vec<T> {}
// SAFETY: through a shared reference items are only read.
unsafe impl<T: Sync> Sync for Vec<T> {}

impl<T> Vec<T> {
    /// An empty list, which takes no memory.
    #[inline]
    pub const fn new() -> Self {
        Vec {
            first: NonNull::dangling(),
            len: 0,
            capacity: 0,
            lender: None,
            items: PhantomData,
        }
    }

    /// A list in an array with room for `capacity` items, the first `len` of which are there.
    ///
    /// # Safety
    ///
    /// So many items are there, and room for so many. Until the list calls [`Lender::end`] the lender stays where it is, and
    /// nobody else uses the array while a call that was given the list, or a slice of it, runs. The lender may be called on
    /// each thread that has the list.
    #[inline]
    pub unsafe fn borrowed(
        lender: NonNull<dyn Lender>,
        first: NonNull<T>,
        len: usize,
        capacity: usize,
    ) -> Self
    where
        T: Copy,
    {
        Vec {
            first,
            len,
            capacity,
            lender: Some(lender),
            items: PhantomData,
        }
    }

    /// The number of items.
    #[inline]
    pub const fn len(&self) -> usize {
        self.len
    }

    /// Whether there is no item.
    #[inline]
    pub const fn is_empty(&self) -> bool {
        self.len == 0
    }

    /// The number of items that there is room for.
    #[inline]
    pub const fn capacity(&self) -> usize {
        self.capacity
    }

    /// The items.
    #[inline]
    pub fn as_slice(&self) -> &[T] {
        // SAFETY: so many items are written there.
        unsafe { slice::from_raw_parts(self.first.as_ptr(), self.len) }
    }

    /// The items, to be changed.
    #[inline]
    pub fn as_mut_slice(&mut self) -> &mut [T] {
        // SAFETY: so many items are written there, and the list is borrowed by nobody else.
        unsafe { slice::from_raw_parts_mut(self.first.as_ptr(), self.len) }
    }

    // The room behind the items.
    #[inline]
    fn spare(&mut self) -> &mut [MaybeUninit<T>] {
        // SAFETY: the room is `capacity` items long, `len` isn't more, and the list is borrowed by nobody else.
        unsafe {
            let behind = self.first.as_ptr().add(self.len).cast();
            slice::from_raw_parts_mut(behind, self.capacity - self.len)
        }
    }

    /// Makes room for so many more items, and for some beyond these where it grows.
    ///
    /// # Errors
    ///
    /// Memory is refused; nothing has changed then.
    #[inline]
    pub fn try_reserve(&mut self, additional: usize) -> Result<(), Refused> {
        if self.capacity - self.len >= additional {
            return Ok(());
        }
        self.grow(additional, |own| own.try_reserve(additional).is_ok())
    }

    /// Makes room for so many more items and no others.
    ///
    /// # Errors
    ///
    /// Memory is refused; nothing has changed then.
    #[inline]
    pub fn try_reserve_exact(&mut self, additional: usize) -> Result<(), Refused> {
        if self.capacity - self.len >= additional {
            return Ok(());
        }
        self.grow(additional, |own| own.try_reserve_exact(additional).is_ok())
    }

    // Makes room: in the array, or by this call in memory of its own.
    #[cold]
    fn grow(
        &mut self,
        additional: usize,
        reserve: impl FnOnce(&mut Own<T>) -> bool,
    ) -> Result<(), Refused> {
        let Some(lender) = self.lender else {
            let mut own = self.take_own();
            let has_room = reserve(&mut own);
            *self = Vec::from(own);
            return if has_room { Ok(()) } else { Err(Refused) };
        };
        let wanted = self.len.checked_add(additional).ok_or(Refused)?;
        // SAFETY: the loan hasn't ended, so the lender is where it was.
        match unsafe { lender.as_ref() }.grow(self.len, wanted) {
            Growth::Array(first, capacity) => {
                (self.first, self.capacity) = (first.cast(), capacity);
                if capacity >= wanted {
                    Ok(())
                } else {
                    Err(Refused)
                }
            }
            Growth::Refused => Err(Refused),
            Growth::Own => {
                let mut own = Own::new();
                own.try_reserve(wanted).map_err(|_| Refused)?;
                // SAFETY: there is room for `len` items in new memory, and so many are read; they are `Copy`.
                unsafe {
                    ptr::copy_nonoverlapping(self.first.as_ptr(), own.as_mut_ptr(), self.len);
                    own.set_len(self.len);
                }
                *self = Vec::from(own);
                Ok(())
            }
        }
    }

    // The list of Rust's that has the items of this one, which is empty then. There is no lender.
    fn take_own(&mut self) -> Own<T> {
        let list = ManuallyDrop::new(mem::take(self));
        debug_assert!(list.lender.is_none());
        // SAFETY: these are the parts of a list of Rust's, and nobody else has them any more.
        unsafe { Own::from_raw_parts(list.first.as_ptr(), list.len, list.capacity) }
    }

    /// Adds an item.
    ///
    /// # Panics
    ///
    /// If memory is refused.
    #[inline]
    pub fn push(&mut self, item: T) {
        self.try_reserve(1).expect("memory");
        self.spare()[0].write(item);
        self.len += 1;
    }

    /// Puts an item before the one at `index`.
    ///
    /// # Panics
    ///
    /// If `index` is above the length, or memory is refused.
    #[inline]
    pub fn insert(&mut self, index: usize, item: T) {
        assert!(index <= self.len, "an index above the length");
        self.push(item);
        self.as_mut_slice()[index..].rotate_right(1);
    }

    /// Takes the item at `index` away.
    ///
    /// # Panics
    ///
    /// If `index` isn't below the length.
    #[inline]
    pub fn remove(&mut self, index: usize) -> T {
        self.as_mut_slice()[index..].rotate_left(1);
        self.pop().expect("the item that was moved to the end")
    }

    /// Takes the last item away.
    #[inline]
    pub fn pop(&mut self) -> Option<T> {
        self.len = self.len.checked_sub(1)?;
        // SAFETY: it is written, and belongs to the list no more.
        Some(unsafe { self.first.as_ptr().add(self.len).read() })
    }

    /// Keeps the first `len` items.
    #[inline]
    pub fn truncate(&mut self, len: usize) {
        while self.len > len {
            drop(self.pop());
        }
    }

    /// Takes all items away.
    #[inline]
    pub fn clear(&mut self) {
        self.truncate(0);
    }

    /// Moves the items of another list to the end.
    ///
    /// # Panics
    ///
    /// If memory is refused.
    pub fn append(&mut self, other: &mut Self) {
        self.try_reserve(other.len).expect("memory");
        // SAFETY: there is room for them here, and the lists are two; the other's items are this one's then.
        unsafe {
            let behind = self.first.as_ptr().add(self.len);
            ptr::copy_nonoverlapping(other.first.as_ptr(), behind, other.len);
        }
        self.len += mem::take(&mut other.len);
    }
}

impl<T: Copy> Vec<T> {
    /// Adds these items at the end.
    ///
    /// # Panics
    ///
    /// If memory is refused.
    #[inline]
    pub fn extend_from_slice(&mut self, items: &[T]) {
        self.try_reserve(items.len()).expect("memory");
        for (room, item) in self.spare().iter_mut().zip(items) {
            room.write(*item);
        }
        self.len += items.len();
    }

    /// Keeps the first `len` items, or fills up to `len` with copies of one.
    ///
    /// # Panics
    ///
    /// If memory is refused.
    #[inline]
    pub fn resize(&mut self, len: usize, item: T) {
        if let Some(additional) = len.checked_sub(self.len) {
            self.try_reserve(additional).expect("memory");
            self.spare()[..additional].fill(MaybeUninit::new(item));
        }
        self.len = len;
    }
}

impl<T> Drop for Vec<T> {
    #[inline]
    fn drop(&mut self) {
        match self.lender {
            // SAFETY: the loan hasn't ended, so the lender is where it was.
            Some(lender) => unsafe { lender.as_ref() }.end(),
            None if self.capacity != 0 => drop(self.take_own()),
            None => {}
        }
    }
}

impl<T> From<Own<T>> for Vec<T> {
    #[inline]
    fn from(own: Own<T>) -> Self {
        let mut own = ManuallyDrop::new(own);
        // SAFETY: a list's place isn't null.
        let first = unsafe { NonNull::new_unchecked(own.as_mut_ptr()) };
        Vec {
            first,
            len: own.len(),
            capacity: own.capacity(),
            ..Vec::new()
        }
    }
}

impl<T> FromIterator<T> for Vec<T> {
    fn from_iter<I: IntoIterator<Item = T>>(items: I) -> Self {
        Vec::from(items.into_iter().collect::<Own<T>>())
    }
}

impl<T> Default for Vec<T> {
    #[inline]
    fn default() -> Self {
        Vec::new()
    }
}

impl<T: PartialEq> PartialEq for Vec<T> {
    fn eq(&self, other: &Self) -> bool {
        self.as_slice() == other.as_slice()
    }
}

impl<T: Eq> Eq for Vec<T> {}

impl<T: Hash> Hash for Vec<T> {
    fn hash<H: Hasher>(&self, state: &mut H) {
        self.as_slice().hash(state);
    }
}

impl<T: fmt::Debug> fmt::Debug for Vec<T> {
    fn fmt(&self, f: &mut fmt::Formatter<'_>) -> fmt::Result {
        self.as_slice().fmt(f)
    }
}

impl<T> IntoIterator for Vec<T> {
    type Item = T;
    type IntoIter = IntoIter<T>;

    #[inline]
    fn into_iter(mut self) -> IntoIter<T> {
        self.as_mut_slice().reverse();
        IntoIter(self)
    }
}

/// The items of a list, one after the other.
#[derive(Debug)]
pub struct IntoIter<T>(Vec<T>); // the last item comes first

impl<T> Iterator for IntoIter<T> {
    type Item = T;

    #[inline]
    fn next(&mut self) -> Option<T> {
        self.0.pop()
    }
}

#[cfg(test)]
mod tests;
