//! Sets.

use crate::map::{self, IndexMap};
use rshim::alloc::{AllocFailed, Global};
use std::borrow::Borrow;
use std::hash::Hash;

/// A set in the order in which its values came.
#[derive(Debug)]
pub struct IndexSet<T> {
    map: IndexMap<T, ()>,
}

impl<T: Eq + Hash> IndexSet<T> {
    /// The empty set. It takes no memory.
    pub fn new(alloc: Global) -> IndexSet<T> {
        IndexSet { map: IndexMap::new(alloc) }
    }

    /// How many values there are.
    pub fn len(&self) -> usize {
        self.map.len()
    }

    /// Whether there is none.
    pub fn is_empty(&self) -> bool {
        self.map.is_empty()
    }

    /// Whether the value is there.
    pub fn contains<Q: Hash + Eq + ?Sized>(&self, value: &Q) -> bool
    where
        T: Borrow<Q>,
    {
        self.map.contains_key(value)
    }

    /// The place of a value.
    pub fn get_index_of<Q: Hash + Eq + ?Sized>(&self, value: &Q) -> Option<usize>
    where
        T: Borrow<Q>,
    {
        self.map.get_index_of(value)
    }

    /// The value at a place.
    pub fn get_index(&self, place: usize) -> Option<&T> {
        self.map.get_index(place).map(|(value, ())| value)
    }

    /// The values in order.
    pub fn iter(&self) -> impl ExactSizeIterator<Item = &T> {
        self.map.keys()
    }

    /// Puts a value in, and answers its place and whether it is new. A new value goes last.
    ///
    /// # Errors
    /// There is no memory for it: it comes back, and nothing has changed.
    pub fn insert_full(&mut self, value: T) -> Result<(usize, bool), AllocFailed<T>> {
        match self.map.insert_full(value, ()) {
            Ok((place, old)) => Ok((place, old.is_none())),
            Err(AllocFailed { value: (value, ()), error }) => Err(AllocFailed { value, error }),
        }
    }

    /// Puts a value in, and answers whether it is new.
    ///
    /// # Errors
    /// There is no memory for it: it comes back, and nothing has changed.
    pub fn insert(&mut self, value: T) -> Result<bool, AllocFailed<T>> {
        Ok(self.insert_full(value)?.1)
    }
}

impl<T> IntoIterator for IndexSet<T> {
    type Item = T;
    type IntoIter = IntoIter<T>;

    fn into_iter(self) -> IntoIter<T> {
        IntoIter(self.map.into_iter())
    }
}

/// The values in order.
#[derive(Debug)]
pub struct IntoIter<T>(map::IntoIter<T, ()>);

impl<T> Iterator for IntoIter<T> {
    type Item = T;

    fn next(&mut self) -> Option<T> {
        self.0.next().map(|(value, ())| value)
    }

    fn size_hint(&self) -> (usize, Option<usize>) {
        self.0.size_hint()
    }
}

#[cfg(test)]
mod tests {
    use super::*;
    use rshim::String;
    use rshim::alloc::AllocError;

    #[test]
    fn a_value_keeps_its_place() -> Result<(), AllocError> {
        let mut set = IndexSet::new(Global);
        assert!(set.is_empty());
        for (text, wanted) in [("b", (0, true)), ("a", (1, true)), ("b", (0, false))] {
            assert_eq!(set.insert_full(String::from_str(Global, text)?)?, wanted);
        }
        assert_eq!((set.get_index_of("a"), set.contains("c"), set.len()), (Some(1), false, 2));
        assert_eq!(set.get_index(0).map(|text| text.as_str()), Some("b"));
        assert!(set.into_iter().map(String::into_std).eq(["b", "a"]));
        Ok(())
    }
}
