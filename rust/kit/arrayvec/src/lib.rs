//! A list of at most `N` items that takes no memory, by the calls that are used here of the crate of this name.
#![forbid(unsafe_code)]

use std::fmt;
use std::hash::{Hash, Hasher};
use std::ops::{Deref, DerefMut};

/// A list of at most `N` items. What stands past its end are items that were put in once.
#[derive(Clone, Copy)]
pub struct ArrayVec<T, const N: usize> {
    items: Option<[T; N]>,
    len: usize,
}

/// There is no room for so many.
#[derive(Clone, Copy, Debug, PartialEq, Eq)]
pub struct CapacityError;

impl<T: Copy, const N: usize> ArrayVec<T, N> {
    /// A list of nothing.
    pub const fn new() -> ArrayVec<T, N> {
        ArrayVec {
            items: None,
            len: 0,
        }
    }

    /// Puts an item at the end, for which there is room.
    pub fn push(&mut self, item: T) {
        assert!(self.len < N, "there is no room for one more");
        self.items.get_or_insert([item; N])[self.len] = item;
        self.len += 1;
    }

    /// Puts an item in front of the one at `at`.
    pub fn insert(&mut self, at: usize, item: T) {
        self.push(item);
        self.as_mut_slice()[at..].rotate_right(1);
    }

    /// Takes out the item at `at`.
    pub fn remove(&mut self, at: usize) -> T {
        let item = self[at];
        self.as_mut_slice()[at..].rotate_left(1);
        self.len -= 1;
        item
    }

    /// Takes out all.
    pub fn clear(&mut self) {
        self.len = 0;
    }

    /// Puts copies of these items at the end, or none of them.
    pub fn try_extend_from_slice(&mut self, items: &[T]) -> Result<(), CapacityError> {
        if N - self.len < items.len() {
            return Err(CapacityError);
        }
        if let Some(first) = items.first() {
            let end = self.len + items.len();
            self.items.get_or_insert([*first; N])[self.len..end].copy_from_slice(items);
            self.len = end;
        }
        Ok(())
    }
}

impl<T, const N: usize> ArrayVec<T, N> {
    /// Its items.
    pub fn as_slice(&self) -> &[T] {
        match &self.items {
            Some(items) => &items[..self.len],
            None => &[],
        }
    }

    /// Its items, to be changed.
    pub fn as_mut_slice(&mut self) -> &mut [T] {
        match &mut self.items {
            Some(items) => &mut items[..self.len],
            None => &mut [],
        }
    }
}

impl<T: Copy, const N: usize> Default for ArrayVec<T, N> {
    fn default() -> ArrayVec<T, N> {
        ArrayVec::new()
    }
}

impl<T, const N: usize> Deref for ArrayVec<T, N> {
    type Target = [T];

    fn deref(&self) -> &[T] {
        self.as_slice()
    }
}

impl<T, const N: usize> DerefMut for ArrayVec<T, N> {
    fn deref_mut(&mut self) -> &mut [T] {
        self.as_mut_slice()
    }
}

impl<'a, T, const N: usize> IntoIterator for &'a ArrayVec<T, N> {
    type Item = &'a T;
    type IntoIter = std::slice::Iter<'a, T>;

    fn into_iter(self) -> Self::IntoIter {
        self.as_slice().iter()
    }
}

impl<T: fmt::Debug, const N: usize> fmt::Debug for ArrayVec<T, N> {
    fn fmt(&self, f: &mut fmt::Formatter<'_>) -> fmt::Result {
        self.as_slice().fmt(f)
    }
}

impl<T: PartialEq, const N: usize> PartialEq for ArrayVec<T, N> {
    fn eq(&self, other: &ArrayVec<T, N>) -> bool {
        self.as_slice() == other.as_slice()
    }
}

impl<T: Eq, const N: usize> Eq for ArrayVec<T, N> {}

impl<T: Hash, const N: usize> Hash for ArrayVec<T, N> {
    fn hash<H: Hasher>(&self, state: &mut H) {
        self.as_slice().hash(state);
    }
}
