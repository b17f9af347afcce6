//! Vectors whose room may be refused.

use crate::alloc::{AllocError, AllocFailed, Global};
use std::ops::{Deref, DerefMut};
use std::slice;

/// A vector of std that answers a refusal. It lends its elements as a slice.
#[derive(PartialEq, Eq, PartialOrd, Ord, Hash, Debug)]
pub struct Vec<T> {
    items: std::vec::Vec<T>,
}

impl<T> Vec<T> {
    /// The empty vector. It takes no memory.
    pub const fn new(_: Global) -> Vec<T> {
        Vec { items: std::vec::Vec::new() }
    }

    /// An empty vector with room for so many elements.
    ///
    /// # Errors
    /// There is no memory for them.
    pub fn with_capacity(alloc: Global, count: usize) -> Result<Vec<T>, AllocError> {
        let mut made = Vec::new(alloc);
        made.items.try_reserve_exact(count)?;
        Ok(made)
    }

    /// A copy of a slice.
    ///
    /// # Errors
    /// There is no memory for it.
    pub fn from_slice(alloc: Global, slice: &[T]) -> Result<Vec<T>, AllocError>
    where
        T: Clone,
    {
        let mut made = Vec::with_capacity(alloc, slice.len())?;
        made.items.extend_from_slice(slice);
        Ok(made)
    }

    /// How many elements there are.
    pub fn len(&self) -> usize {
        self.items.len()
    }

    /// Whether there is none.
    pub fn is_empty(&self) -> bool {
        self.items.is_empty()
    }

    /// The elements.
    pub fn as_slice(&self) -> &[T] {
        &self.items
    }

    /// The elements, to be changed.
    pub fn as_mut_slice(&mut self) -> &mut [T] {
        &mut self.items
    }

    /// Puts a value last.
    ///
    /// # Errors
    /// There is no memory for it: the value comes back, and nothing has changed.
    #[inline]
    pub fn push(&mut self, value: T) -> Result<(), AllocFailed<T>> {
        if self.items.len() == self.items.capacity() && self.items.try_reserve(1).is_err() {
            let error = AllocError;
            return Err(AllocFailed { value, error });
        }
        self.items.push(value);
        Ok(())
    }

    /// Takes the last element out.
    #[inline]
    pub fn pop(&mut self) -> Option<T> {
        self.items.pop()
    }

    /// Puts copies of these last.
    ///
    /// # Errors
    /// There is no memory for them, and nothing has changed.
    pub fn extend_from_slice(&mut self, slice: &[T]) -> Result<(), AllocError>
    where
        T: Clone,
    {
        self.items.try_reserve(slice.len())?;
        self.items.extend_from_slice(slice);
        Ok(())
    }

    /// Moves all elements of another behind its own.
    ///
    /// # Errors
    /// There is no memory for them, and nothing has changed.
    pub fn append(&mut self, other: &mut Vec<T>) -> Result<(), AllocError> {
        self.items.try_reserve(other.len())?;
        self.items.append(&mut other.items);
        Ok(())
    }

    /// Makes room for so many more elements.
    ///
    /// # Errors
    /// There is no memory for them.
    pub fn reserve(&mut self, count: usize) -> Result<(), AllocError> {
        Ok(self.items.try_reserve(count)?)
    }

    /// Lets the elements from a place on go.
    pub fn truncate(&mut self, count: usize) {
        self.items.truncate(count);
    }

    /// Lets all elements go.
    pub fn clear(&mut self) {
        self.items.clear();
    }

    /// Takes an element out, and puts the last into its place.
    pub fn swap_remove(&mut self, at: usize) -> T {
        self.items.swap_remove(at)
    }

    /// The allocator.
    pub fn allocator(&self) -> &Global {
        &Global
    }

    /// The vector of std, with no copy.
    pub fn into_std(self) -> std::vec::Vec<T> {
        self.items
    }
}

impl<T> From<std::vec::Vec<T>> for Vec<T> {
    fn from(items: std::vec::Vec<T>) -> Vec<T> {
        Vec { items }
    }
}

impl<T> Deref for Vec<T> {
    type Target = [T];

    #[inline]
    fn deref(&self) -> &[T] {
        &self.items
    }
}

impl<T> DerefMut for Vec<T> {
    #[inline]
    fn deref_mut(&mut self) -> &mut [T] {
        &mut self.items
    }
}

impl<T> IntoIterator for Vec<T> {
    type Item = T;
    type IntoIter = std::vec::IntoIter<T>;

    fn into_iter(self) -> Self::IntoIter {
        self.items.into_iter()
    }
}

impl<'a, T> IntoIterator for &'a Vec<T> {
    type Item = &'a T;
    type IntoIter = slice::Iter<'a, T>;

    fn into_iter(self) -> Self::IntoIter {
        self.items.iter()
    }
}

impl<'a, T> IntoIterator for &'a mut Vec<T> {
    type Item = &'a mut T;
    type IntoIter = slice::IterMut<'a, T>;

    fn into_iter(self) -> Self::IntoIter {
        self.items.iter_mut()
    }
}

/// The elements of an array as a vector.
///
/// # Errors
/// There is no memory for them.
pub fn of_array<T, const N: usize>(alloc: Global, array: [T; N]) -> Result<Vec<T>, AllocError> {
    let mut made = Vec::with_capacity(alloc, N)?;
    made.items.extend(array);
    Ok(made)
}

/// So many elements that are equal to this one.
///
/// # Errors
/// There is no memory for them.
pub fn filled<T: Clone>(alloc: Global, element: T, count: usize) -> Result<Vec<T>, AllocError> {
    let mut made = Vec::with_capacity(alloc, count)?;
    made.items.resize(count, element);
    Ok(made)
}

/// Iterators whose items are gathered in a [`Vec`].
pub trait CollectIn: Iterator + Sized {
    /// The items.
    ///
    /// # Errors
    /// There is no memory for them.
    fn collect_in(self, alloc: Global) -> Result<Vec<Self::Item>, AllocError> {
        let mut made = Vec::with_capacity(alloc, self.size_hint().0)?;
        for item in self {
            made.push(item)?;
        }
        Ok(made)
    }
}

impl<I: Iterator> CollectIn for I {}

/// Slices of which a [`Vec`] is made.
pub trait CopyIn<T> {
    /// A copy.
    ///
    /// # Errors
    /// There is no memory for it.
    fn copied_in(&self, alloc: Global) -> Result<Vec<T>, AllocError>;
}

impl<T: Clone> CopyIn<T> for [T] {
    fn copied_in(&self, alloc: Global) -> Result<Vec<T>, AllocError> {
        Vec::from_slice(alloc, self)
    }
}

#[cfg(test)]
mod tests {
    use super::*;

    #[test]
    fn elements_come_out_as_they_went_in() -> Result<(), AllocError> {
        let mut made = Vec::new(Global);
        for number in 0..100 {
            made.push(number)?;
        }
        made.extend_from_slice(&[100, 101])?;
        assert_eq!(made.pop(), Some(101));
        made.truncate(3);
        assert_eq!(made.swap_remove(0), 0);
        assert_eq!(made.as_slice(), [2, 1]);
        assert_eq!(made.into_std(), [2, 1]);
        Ok(())
    }

    #[test]
    fn room_that_no_machine_has_is_refused() {
        assert_eq!(Vec::<u64>::with_capacity(Global, usize::MAX).err(), Some(AllocError));
        let mut made = Vec::<u8>::new(Global);
        assert_eq!(made.reserve(usize::MAX), Err(AllocError));
        assert!(made.is_empty());
    }

    #[test]
    fn macros_and_iterators_make_the_same() -> Result<(), AllocError> {
        let made = crate::vec![in Global; 1, 2, 3]?;
        assert_eq!(made, (1..=3).collect_in(Global)?);
        assert_eq!(made, [1, 2, 3][..].copied_in(Global)?);
        assert_eq!(crate::vec![in Global; 7; 2]?.as_slice(), [7, 7]);
        let none: Vec<u8> = crate::vec![in Global]?;
        assert!(none.is_empty());
        Ok(())
    }
}
