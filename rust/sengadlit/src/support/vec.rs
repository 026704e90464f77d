//! A list whose growth can fail.

use super::alloc::{AllocError, AllocFailed, Global};
use core::fmt;
use core::ops::{Deref, DerefMut};
use core::slice;
use rust_alloc::vec;

/// A growable list, as [Rust's own](rust_alloc::vec::Vec), but a call that needs memory returns an error where it
/// is refused, and then changes nothing.
///
/// After [`Vec::reserve`] calls that stay within the capacity take no memory and succeed. Everything
/// that needs no memory is reached through the slice that the list dereferences to.
#[derive(Default, PartialEq, Eq, Hash)]
pub struct Vec<T>(vec::Vec<T>);

impl<T> Vec<T> {
    /// An empty list. It takes no memory.
    #[inline]
    pub const fn new(_alloc: Global) -> Self {
        Vec(vec::Vec::new())
    }

    /// An empty list with room for `capacity` elements.
    ///
    /// # Errors
    ///
    /// Memory is refused.
    #[inline]
    pub fn with_capacity(alloc: Global, capacity: usize) -> Result<Self, AllocError> {
        let mut list = Vec::new(alloc);
        list.reserve_exact(capacity)?;
        Ok(list)
    }

    /// The allocator that the list was made with.
    #[inline]
    pub fn allocator(&self) -> &Global {
        &Global
    }

    /// The number of elements.
    #[inline]
    pub fn len(&self) -> usize {
        self.0.len()
    }

    /// Whether there is no element.
    #[inline]
    pub fn is_empty(&self) -> bool {
        self.0.is_empty()
    }

    /// The number of elements that there is room for.
    #[inline]
    pub fn capacity(&self) -> usize {
        self.0.capacity()
    }

    /// The elements.
    #[inline]
    pub fn as_slice(&self) -> &[T] {
        self.0.as_slice()
    }

    /// The elements, to be changed.
    #[inline]
    pub fn as_mut_slice(&mut self) -> &mut [T] {
        self.0.as_mut_slice()
    }

    /// Makes room for `additional` more elements, and for some beyond these where it grows.
    ///
    /// # Errors
    ///
    /// Memory is refused; nothing has changed then.
    #[inline]
    pub fn reserve(&mut self, additional: usize) -> Result<(), AllocError> {
        self.0.try_reserve(additional).map_err(|_| AllocError)
    }

    /// Makes room for `additional` more elements and no others.
    ///
    /// # Errors
    ///
    /// Memory is refused; nothing has changed then.
    #[inline]
    pub fn reserve_exact(&mut self, additional: usize) -> Result<(), AllocError> {
        self.0.try_reserve_exact(additional).map_err(|_| AllocError)
    }

    /// Adds an element at the end, or gives it back.
    ///
    /// # Errors
    ///
    /// Memory is refused; the error holds the element.
    #[inline]
    pub fn push(&mut self, value: T) -> Result<(), AllocFailed<T>> {
        if self.reserve(1).is_err() {
            return Err(AllocFailed { value });
        }
        self.0.push(value);
        Ok(())
    }

    /// Puts an element before the one at `index`, or gives it back.
    ///
    /// # Panics
    ///
    /// If `index` is above the length.
    ///
    /// # Errors
    ///
    /// Memory is refused; the error holds the element.
    #[inline]
    pub fn insert(&mut self, index: usize, value: T) -> Result<(), AllocFailed<T>> {
        if self.reserve(1).is_err() {
            return Err(AllocFailed { value });
        }
        self.0.insert(index, value);
        Ok(())
    }

    /// Takes the element at `index` away; the later ones move down.
    ///
    /// # Panics
    ///
    /// If `index` isn't below the length.
    #[inline]
    pub fn remove(&mut self, index: usize) -> T {
        self.0.remove(index)
    }

    /// Takes the last element away.
    #[inline]
    pub fn pop(&mut self) -> Option<T> {
        self.0.pop()
    }

    /// Keeps the first `len` elements. The capacity stays.
    #[inline]
    pub fn truncate(&mut self, len: usize) {
        self.0.truncate(len);
    }

    /// Takes all elements away. The capacity stays.
    #[inline]
    pub fn clear(&mut self) {
        self.0.clear();
    }

    /// Moves the elements of `other` to the end.
    ///
    /// # Errors
    ///
    /// Memory is refused; nothing has changed then.
    #[inline]
    pub fn append(&mut self, other: &mut Self) -> Result<(), AllocError> {
        self.reserve(other.len())?;
        self.0.append(&mut other.0);
        Ok(())
    }
}

impl<T: Copy> Vec<T> {
    /// A list of these elements.
    ///
    /// # Errors
    ///
    /// Memory is refused.
    #[inline]
    pub fn from_slice(alloc: Global, items: &[T]) -> Result<Self, AllocError> {
        let mut list = Vec::with_capacity(alloc, items.len())?;
        list.0.extend_from_slice(items);
        Ok(list)
    }

    /// A list of `len` copies of an element.
    ///
    /// # Errors
    ///
    /// Memory is refused.
    #[inline]
    pub fn from_elem(alloc: Global, value: T, len: usize) -> Result<Self, AllocError> {
        let mut list = Vec::with_capacity(alloc, len)?;
        list.0.resize(len, value);
        Ok(list)
    }

    /// Adds these elements at the end.
    ///
    /// # Errors
    ///
    /// Memory is refused; nothing has changed then.
    #[inline]
    pub fn extend_from_slice(&mut self, items: &[T]) -> Result<(), AllocError> {
        self.reserve(items.len())?;
        self.0.extend_from_slice(items);
        Ok(())
    }

    /// Keeps the first `len` elements, or fills up to `len` with copies of `value`.
    ///
    /// # Errors
    ///
    /// Memory is refused; nothing has changed then.
    #[inline]
    pub fn resize(&mut self, len: usize, value: T) -> Result<(), AllocError> {
        self.reserve(len.saturating_sub(self.len()))?;
        self.0.resize(len, value);
        Ok(())
    }
}

impl<T> Deref for Vec<T> {
    type Target = [T];

    #[inline]
    fn deref(&self) -> &[T] {
        self.as_slice()
    }
}

impl<T> DerefMut for Vec<T> {
    #[inline]
    fn deref_mut(&mut self) -> &mut [T] {
        self.as_mut_slice()
    }
}

impl<T> AsRef<[T]> for Vec<T> {
    #[inline]
    fn as_ref(&self) -> &[T] {
        self.as_slice()
    }
}

impl<T> AsMut<[T]> for Vec<T> {
    #[inline]
    fn as_mut(&mut self) -> &mut [T] {
        self.as_mut_slice()
    }
}

impl<T: fmt::Debug> fmt::Debug for Vec<T> {
    fn fmt(&self, f: &mut fmt::Formatter<'_>) -> fmt::Result {
        self.0.fmt(f)
    }
}

impl<T> IntoIterator for Vec<T> {
    type Item = T;
    type IntoIter = vec::IntoIter<T>;

    #[inline]
    fn into_iter(self) -> vec::IntoIter<T> {
        self.0.into_iter()
    }
}

impl<'a, T> IntoIterator for &'a Vec<T> {
    type Item = &'a T;
    type IntoIter = slice::Iter<'a, T>;

    #[inline]
    fn into_iter(self) -> slice::Iter<'a, T> {
        self.iter()
    }
}

impl<'a, T> IntoIterator for &'a mut Vec<T> {
    type Item = &'a mut T;
    type IntoIter = slice::IterMut<'a, T>;

    #[inline]
    fn into_iter(self) -> slice::IterMut<'a, T> {
        self.iter_mut()
    }
}

impl<T> From<vec::Vec<T>> for Vec<T> {
    #[inline]
    fn from(items: vec::Vec<T>) -> Self {
        Vec(items)
    }
}

impl<T> From<Vec<T>> for vec::Vec<T> {
    #[inline]
    fn from(items: Vec<T>) -> Self {
        items.0
    }
}

#[cfg(test)]
mod tests;
