//! Maps.

use super::prelude::Vec;
use sengadlit::alloc::{AllocError, Global};
use std::mem;

/// A map with ordered keys, kept as a sorted list of pairs.
///
/// It stands in for [`std::collections::BTreeMap`], which aborts the program if memory runs out.
#[derive(Debug)]
pub struct BTreeMap<K, V>(Vec<(K, V)>);

impl<K: Ord, V> BTreeMap<K, V> {
    /// An empty map. It takes no memory.
    pub const fn new(alloc: Global) -> Self {
        BTreeMap(Vec::new(alloc))
    }

    /// Sets the value of a key, and returns the old one.
    ///
    /// # Errors
    ///
    /// [`AllocError`] if memory runs out; the map is then unchanged.
    pub fn insert(&mut self, key: K, value: V) -> Result<Option<V>, AllocError> {
        match self.place_of(&key) {
            Ok(place) => Ok(Some(mem::replace(&mut self.0[place].1, value))),
            Err(place) => {
                self.0.insert(place, (key, value))?;
                Ok(None)
            }
        }
    }

    /// The value of a key.
    pub fn get(&self, key: &K) -> Option<&V> {
        let place = self.place_of(key).ok()?;
        Some(&self.0[place].1)
    }

    /// Whether the key has a value.
    pub fn contains_key(&self, key: &K) -> bool {
        self.place_of(key).is_ok()
    }

    // The place of a key's pair, or the place where it would be inserted.
    fn place_of(&self, key: &K) -> Result<usize, usize> {
        self.0.binary_search_by(|(other, _)| other.cmp(key))
    }
}

#[cfg(test)]
mod tests {
    use super::*;

    #[test]
    fn keeps_the_last_value_of_each_key() {
        let mut map = BTreeMap::new(Global);
        for (key, value) in [(5, 'a'), (1, 'b'), (9, 'c'), (3, 'd')] {
            assert_eq!(map.insert(key, value), Ok(None));
        }
        assert_eq!(map.insert(9, 'e'), Ok(Some('c')));
        let found: std::vec::Vec<_> = (0..11).filter_map(|key| map.get(&key)).collect();
        assert_eq!(found, [&'b', &'d', &'a', &'e']);
        assert!(map.contains_key(&3));
        assert!(!map.contains_key(&4));
    }
}
