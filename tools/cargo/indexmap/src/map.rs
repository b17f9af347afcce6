//! Maps.

use rshim::Vec;
use rshim::alloc::{AllocError, AllocFailed, Global};
use std::borrow::Borrow;
use std::collections::HashMap;
use std::collections::hash_map::Entry;
use std::hash::{BuildHasher, BuildHasherDefault, Hash, Hasher, RandomState};
use std::mem;
use std::ops::{Index, IndexMut};

/// A map in the order in which its keys came.
#[derive(Debug)]
pub struct IndexMap<K, V> {
    entries: Vec<Bucket<K, V>>,
    /// For each hash the place of the last entry that has it.
    places: HashMap<u64, usize, BuildHasherDefault<Kept>>,
    state: RandomState,
}

#[derive(Debug)]
struct Bucket<K, V> {
    key: K,
    value: V,
    /// The place of the entry before this one that has its hash.
    before: Option<usize>,
}

/// What an insertion answers: a place and the value that was there; or both come back.
pub type Inserted<K, V> = Result<(usize, Option<V>), AllocFailed<(K, V)>>;

/// The hasher of hashes, which are kept as they are.
#[derive(Debug, Default)]
struct Kept(u64);

impl Hasher for Kept {
    fn finish(&self) -> u64 {
        self.0
    }

    fn write(&mut self, bytes: &[u8]) {
        self.0 = bytes.iter().fold(self.0, |kept, &byte| kept.rotate_left(8) ^ u64::from(byte));
    }

    fn write_u64(&mut self, hash: u64) {
        self.0 = hash;
    }
}

impl<K: Eq + Hash, V> IndexMap<K, V> {
    /// The empty map. It takes no memory.
    pub fn new(alloc: Global) -> IndexMap<K, V> {
        IndexMap { entries: Vec::new(alloc), places: HashMap::default(), state: RandomState::new() }
    }

    /// How many keys there are.
    pub fn len(&self) -> usize {
        self.entries.len()
    }

    /// Whether there is none.
    pub fn is_empty(&self) -> bool {
        self.entries.is_empty()
    }

    /// The place of a key.
    pub fn get_index_of<Q: Hash + Eq + ?Sized>(&self, key: &Q) -> Option<usize>
    where
        K: Borrow<Q>,
    {
        if self.is_empty() {
            return None;
        }
        self.place(self.state.hash_one(key), key)
    }

    fn place<Q: Eq + ?Sized>(&self, hash: u64, key: &Q) -> Option<usize>
    where
        K: Borrow<Q>,
    {
        let mut next = self.places.get(&hash).copied();
        while let Some(place) = next {
            if self.entries[place].key.borrow() == key {
                return next;
            }
            next = self.entries[place].before;
        }
        None
    }

    /// Whether the key is there.
    pub fn contains_key<Q: Hash + Eq + ?Sized>(&self, key: &Q) -> bool
    where
        K: Borrow<Q>,
    {
        self.get_index_of(key).is_some()
    }

    /// The value of a key.
    pub fn get<Q: Hash + Eq + ?Sized>(&self, key: &Q) -> Option<&V>
    where
        K: Borrow<Q>,
    {
        Some(&self.entries[self.get_index_of(key)?].value)
    }

    /// The place of a key, the key and its value.
    pub fn get_full<Q: Hash + Eq + ?Sized>(&self, key: &Q) -> Option<(usize, &K, &V)>
    where
        K: Borrow<Q>,
    {
        let place = self.get_index_of(key)?;
        let Bucket { key, value, .. } = &self.entries[place];
        Some((place, key, value))
    }

    /// The key and the value at a place.
    pub fn get_index(&self, place: usize) -> Option<(&K, &V)> {
        self.entries.get(place).map(|Bucket { key, value, .. }| (key, value))
    }

    /// The keys in order.
    pub fn keys(&self) -> impl ExactSizeIterator<Item = &K> {
        self.entries.iter().map(|bucket| &bucket.key)
    }

    /// The values in order.
    pub fn values(&self) -> impl ExactSizeIterator<Item = &V> {
        self.entries.iter().map(|bucket| &bucket.value)
    }

    /// Gives a key a value, and answers its place and the value that it had. A new key goes last.
    ///
    /// # Errors
    /// There is no memory for it: both come back, and nothing has changed.
    pub fn insert_full(&mut self, key: K, value: V) -> Inserted<K, V> {
        let hash = self.state.hash_one(&key);
        if let Some(place) = self.place(hash, &key) {
            let old = mem::replace(&mut self.entries[place].value, value);
            return Ok((place, Some(old)));
        }
        if let Err(error) = self.make_room() {
            return Err(AllocFailed { value: (key, value), error });
        }
        let place = self.entries.len();
        let before = match self.places.entry(hash) {
            Entry::Occupied(mut last) => Some(last.insert(place)),
            Entry::Vacant(none) => {
                none.insert(place);
                None
            }
        };
        match self.entries.push(Bucket { key, value, before }) {
            Ok(()) => Ok((place, None)),
            Err(AllocFailed { value: Bucket { key, value, .. }, error }) => Err(AllocFailed { value: (key, value), error }),
        }
    }

    /// Gives a key a value, and answers the one that it had.
    ///
    /// # Errors
    /// There is no memory for it: both come back, and nothing has changed.
    pub fn insert(&mut self, key: K, value: V) -> Result<Option<V>, AllocFailed<(K, V)>> {
        Ok(self.insert_full(key, value)?.1)
    }

    /// Room for one more entry in both.
    fn make_room(&mut self) -> Result<(), AllocError> {
        self.entries.reserve(1)?;
        Ok(self.places.try_reserve(1)?)
    }
}

impl<K, V> Index<usize> for IndexMap<K, V> {
    type Output = V;

    fn index(&self, place: usize) -> &V {
        &self.entries[place].value
    }
}

impl<K, V> IndexMut<usize> for IndexMap<K, V> {
    fn index_mut(&mut self, place: usize) -> &mut V {
        &mut self.entries[place].value
    }
}

impl<K, V> IntoIterator for IndexMap<K, V> {
    type Item = (K, V);
    type IntoIter = IntoIter<K, V>;

    fn into_iter(self) -> IntoIter<K, V> {
        IntoIter(self.entries.into_iter())
    }
}

/// The keys and values in order.
#[derive(Debug)]
pub struct IntoIter<K, V>(std::vec::IntoIter<Bucket<K, V>>);

impl<K, V> Iterator for IntoIter<K, V> {
    type Item = (K, V);

    fn next(&mut self) -> Option<(K, V)> {
        self.0.next().map(|Bucket { key, value, .. }| (key, value))
    }

    fn size_hint(&self) -> (usize, Option<usize>) {
        self.0.size_hint()
    }
}

#[cfg(test)]
mod tests {
    use super::*;

    /// A key whose hash is that of every other.
    #[derive(Debug, PartialEq, Eq)]
    struct Same(u32);

    impl Hash for Same {
        fn hash<H: Hasher>(&self, state: &mut H) {
            state.write_u8(0);
        }
    }

    #[test]
    fn keys_keep_the_order_in_which_they_came() -> Result<(), AllocError> {
        let mut map = IndexMap::new(Global);
        for number in (0..1000_u32).rev() {
            assert_eq!(map.insert_full(number, number + 1)?, (999 - number as usize, None));
        }
        assert_eq!(map.insert(998, 0)?, Some(999));
        assert_eq!(map.get_full(&998), Some((1, &998, &0)));
        assert_eq!(map.get_index(0), Some((&999, &1000)));
        assert_eq!((map.get(&1000), map.get_index(1000), map.len()), (None, None, 1000));
        map[0] = 7;
        assert_eq!((map[0], map.values().next()), (7, Some(&7)));
        assert!(map.into_iter().map(|(key, _)| key).eq((0..1000).rev()));
        Ok(())
    }

    #[test]
    fn keys_of_one_hash_are_told_apart() -> Result<(), AllocError> {
        let mut map = IndexMap::new(Global);
        for number in 0..100 {
            map.insert(Same(number), number)?;
        }
        for number in 0..100 {
            assert_eq!(map.get(&Same(number)), Some(&number));
        }
        assert!(!map.contains_key(&Same(100)));
        Ok(())
    }
}
