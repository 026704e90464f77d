//! Collecting an iterator's items into collections whose growth can fail.

use super::prelude::{String, Vec};
use sengadlit::alloc::{AllocError, Global};

/// A collection that can be made of an iterator's items.
pub trait FromIteratorIn<T>: Sized {
    /// Makes the collection.
    ///
    /// # Errors
    ///
    /// [`AllocError`] if memory runs out.
    fn from_iter_in<I: Iterator<Item = T>>(alloc: Global, items: I) -> Result<Self, AllocError>;
}

impl<T> FromIteratorIn<T> for Vec<T> {
    fn from_iter_in<I: Iterator<Item = T>>(alloc: Global, items: I) -> Result<Self, AllocError> {
        let (at_least, _) = items.size_hint();
        let mut list = Vec::with_capacity(alloc, at_least)?;
        for item in items {
            list.push(item)?;
        }
        Ok(list)
    }
}

impl FromIteratorIn<char> for String {
    fn from_iter_in<I: Iterator<Item = char>>(alloc: Global, items: I) -> Result<Self, AllocError> {
        let mut text = String::new(alloc);
        for character in items {
            text.push(character)?;
        }
        Ok(text)
    }
}

/// [`Iterator::collect`] for collections whose growth can fail.
pub trait CollectIn: Iterator + Sized {
    /// Collects the items.
    ///
    /// # Errors
    ///
    /// [`AllocError`] if memory runs out.
    fn collect_in<C: FromIteratorIn<Self::Item>>(self, alloc: Global) -> Result<C, AllocError> {
        C::from_iter_in(alloc, self)
    }
}

impl<I: Iterator> CollectIn for I {}

#[cfg(test)]
mod tests {
    use super::*;

    #[test]
    fn collects_items_in_order() {
        let list: Vec<u8> = (1..4).collect_in(Global).unwrap();
        assert_eq!(list.as_slice(), [1, 2, 3]);
        let odd: Vec<u8> = (0..9).filter(|n| n % 2 == 1).collect_in(Global).unwrap();
        assert_eq!(odd.as_slice(), [1, 3, 5, 7]);
        let none: Vec<u8> = [].into_iter().collect_in(Global).unwrap();
        assert!(none.is_empty());
        let text: String = ['a', '\u{E33}'].into_iter().collect_in(Global).unwrap();
        assert_eq!(text.as_str(), "a\u{E33}");
    }

    #[test]
    fn refuses_more_than_fits() {
        let endless = (0..usize::MAX).map(|_| 0u64);
        assert_eq!(endless.collect_in::<Vec<u64>>(Global), Err(AllocError));
    }
}
