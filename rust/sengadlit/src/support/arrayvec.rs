//! A list in place, without the heap.

use core::array;
use core::error::Error;
use core::fmt;
use core::mem;
use core::ops::{Deref, DerefMut};
use core::slice;

/// A list of at most `CAP` elements, which stand in the value itself.
#[derive(Clone, Copy)]
pub struct ArrayVec<T, const CAP: usize> {
    items: [T; CAP],
    len: usize,
}

impl<T: Default, const CAP: usize> ArrayVec<T, CAP> {
    /// An empty list.
    #[inline]
    pub fn new() -> Self {
        ArrayVec {
            items: array::from_fn(|_| T::default()),
            len: 0,
        }
    }

    /// Takes the last element away.
    #[inline]
    pub fn pop(&mut self) -> Option<T> {
        let last = self.as_mut_slice().last_mut().map(mem::take)?;
        self.len -= 1;
        Some(last)
    }
}

impl<T: Default, const CAP: usize> Default for ArrayVec<T, CAP> {
    #[inline]
    fn default() -> Self {
        ArrayVec::new()
    }
}

impl<T: Copy, const CAP: usize> ArrayVec<T, CAP> {
    /// Adds all of these elements at the end, or none where they find no room.
    ///
    /// # Errors
    ///
    /// There is no room for all of them; nothing is added then.
    #[inline]
    pub fn try_extend_from_slice(&mut self, other: &[T]) -> Result<(), CapacityError> {
        let room = &mut self.items[self.len..];
        let found = room.get_mut(..other.len());
        found.ok_or(CapacityError::new(()))?.copy_from_slice(other);
        self.len += other.len();
        Ok(())
    }
}

impl<T, const CAP: usize> ArrayVec<T, CAP> {
    /// Adds an element at the end.
    ///
    /// # Panics
    ///
    /// If the list is full.
    #[inline]
    pub fn push(&mut self, element: T) {
        self.items[self.len] = element;
        self.len += 1;
    }

    /// Adds an element at the end, or gives it back where the list is full.
    ///
    /// # Errors
    ///
    /// The element, where the list is full.
    #[inline]
    pub fn try_push(&mut self, element: T) -> Result<(), CapacityError<T>> {
        if self.is_full() {
            return Err(CapacityError::new(element));
        }
        self.push(element);
        Ok(())
    }

    /// The number of elements that there is room for: `CAP`.
    #[inline]
    pub const fn capacity(&self) -> usize {
        CAP
    }

    /// Whether there are `CAP` elements.
    #[inline]
    pub const fn is_full(&self) -> bool {
        self.len == CAP
    }

    /// The elements.
    #[inline]
    pub fn as_slice(&self) -> &[T] {
        &self.items[..self.len]
    }

    /// The elements, to be changed.
    #[inline]
    pub fn as_mut_slice(&mut self) -> &mut [T] {
        &mut self.items[..self.len]
    }

    /// Keeps the first `len` elements.
    #[inline]
    pub fn truncate(&mut self, len: usize) {
        self.len = self.len.min(len);
    }

    /// Takes all elements away.
    #[inline]
    pub fn clear(&mut self) {
        self.len = 0;
    }
}

impl<T, const CAP: usize> Deref for ArrayVec<T, CAP> {
    type Target = [T];

    #[inline]
    fn deref(&self) -> &[T] {
        self.as_slice()
    }
}

impl<T, const CAP: usize> DerefMut for ArrayVec<T, CAP> {
    #[inline]
    fn deref_mut(&mut self) -> &mut [T] {
        self.as_mut_slice()
    }
}

impl<'a, T, const CAP: usize> IntoIterator for &'a ArrayVec<T, CAP> {
    type Item = &'a T;
    type IntoIter = slice::Iter<'a, T>;

    #[inline]
    fn into_iter(self) -> slice::Iter<'a, T> {
        self.iter()
    }
}

impl<T: PartialEq, const CAP: usize> PartialEq for ArrayVec<T, CAP> {
    #[inline]
    fn eq(&self, other: &Self) -> bool {
        self.as_slice() == other.as_slice()
    }
}

impl<T: Eq, const CAP: usize> Eq for ArrayVec<T, CAP> {}

impl<T: fmt::Debug, const CAP: usize> fmt::Debug for ArrayVec<T, CAP> {
    fn fmt(&self, f: &mut fmt::Formatter<'_>) -> fmt::Result {
        self.as_slice().fmt(f)
    }
}

/// A list in place had no room; what found none comes back.
#[derive(Clone, Copy, Debug, PartialEq, Eq)]
pub struct CapacityError<T = ()> {
    element: T,
}

impl<T> CapacityError<T> {
    /// An error with what found no room.
    #[inline]
    pub const fn new(element: T) -> Self {
        CapacityError { element }
    }

    /// What found no room.
    #[inline]
    pub fn element(self) -> T {
        self.element
    }
}

impl<T> fmt::Display for CapacityError<T> {
    fn fmt(&self, f: &mut fmt::Formatter<'_>) -> fmt::Result {
        f.write_str("insufficient capacity")
    }
}

impl<T: fmt::Debug> Error for CapacityError<T> {}

#[cfg(test)]
mod tests;
