use crate::alloc::{AllocError, AllocFailed, Global};
use std::io;
use std::ops::{Deref, DerefMut};

/// A list. What makes it longer answers whether there was memory.
#[derive(Debug, Default, PartialEq, Eq, PartialOrd, Ord, Hash)]
pub struct Vec<T> {
    items: std::vec::Vec<T>,
}

impl<T> Vec<T> {
    /// A list of nothing, for which no memory is taken.
    pub const fn new(_alloc: Global) -> Vec<T> {
        Vec {
            items: std::vec::Vec::new(),
        }
    }

    /// A list of nothing, with room for `count`.
    pub fn with_capacity(alloc: Global, count: usize) -> Result<Vec<T>, AllocError> {
        let mut made = Vec::new(alloc);
        made.items
            .try_reserve_exact(count)
            .map_err(|_| AllocError)?;
        Ok(made)
    }

    /// The allocator.
    pub fn allocator(&self) -> &Global {
        &Global
    }

    /// How many it may have before it takes more memory.
    pub fn capacity(&self) -> usize {
        self.items.capacity()
    }

    /// Its items.
    pub fn as_slice(&self) -> &[T] {
        &self.items
    }

    /// Its items, to be changed.
    pub fn as_mut_slice(&mut self) -> &mut [T] {
        &mut self.items
    }

    /// Makes room for `count` more.
    pub fn reserve(&mut self, count: usize) -> Result<(), AllocError> {
        self.items.try_reserve(count).map_err(|_| AllocError)
    }

    /// Puts an item at the end, or gives it back.
    pub fn push(&mut self, value: T) -> Result<(), AllocFailed<T>> {
        if self.items.len() == self.items.capacity() && self.reserve(1).is_err() {
            return Err(AllocFailed { value });
        }
        self.items.push(value);
        Ok(())
    }

    /// Puts an item at the end, for which there is room.
    pub fn push_reserved(&mut self, value: T) {
        assert!(
            self.items.len() < self.items.capacity(),
            "there is no room for one more"
        );
        self.items.push(value);
    }

    /// Puts an item in front of the one at `at`, or gives it back.
    pub fn insert(&mut self, at: usize, value: T) -> Result<(), AllocFailed<T>> {
        if self.reserve(1).is_err() {
            return Err(AllocFailed { value });
        }
        self.items.insert(at, value);
        Ok(())
    }

    /// Takes out the item at `at`.
    pub fn remove(&mut self, at: usize) -> T {
        self.items.remove(at)
    }

    /// Takes out the last item.
    pub fn pop(&mut self) -> Option<T> {
        self.items.pop()
    }

    /// Keeps the first `count`.
    pub fn truncate(&mut self, count: usize) {
        self.items.truncate(count);
    }

    /// Takes out all.
    pub fn clear(&mut self) {
        self.items.clear();
    }

    /// Ends a list of nothing.
    pub fn destroy_empty(self) {}

    /// Puts the items in the order of what `key` makes of them.
    pub fn sort_unstable_by_key<K: Ord>(&mut self, key: impl FnMut(&T) -> K) {
        self.items.sort_unstable_by_key(key);
    }

    /// The list that Rust has, whose growth doesn't answer.
    pub fn into_std(self) -> std::vec::Vec<T> {
        self.items
    }

    pub(crate) fn as_std(&mut self) -> &mut std::vec::Vec<T> {
        &mut self.items
    }
}

impl<T: Copy> Vec<T> {
    /// A copy of these items.
    pub fn from_slice(alloc: Global, items: &[T]) -> Result<Vec<T>, AllocError> {
        let mut made = Vec::with_capacity(alloc, items.len())?;
        made.items.extend_from_slice(items);
        Ok(made)
    }

    /// Puts a copy of these items at the end.
    pub fn extend_from_slice(&mut self, items: &[T]) -> Result<(), AllocError> {
        self.reserve(items.len())?;
        self.items.extend_from_slice(items);
        Ok(())
    }

    /// Makes it `count` items long, by copies of `value` at the end where it is shorter.
    pub fn resize(&mut self, count: usize, value: T) -> Result<(), AllocError> {
        self.reserve(count.saturating_sub(self.items.len()))?;
        self.items.resize(count, value);
        Ok(())
    }
}

impl<T> Deref for Vec<T> {
    type Target = [T];

    fn deref(&self) -> &[T] {
        &self.items
    }
}

impl<T> DerefMut for Vec<T> {
    fn deref_mut(&mut self) -> &mut [T] {
        &mut self.items
    }
}

impl<T> IntoIterator for Vec<T> {
    type Item = T;
    type IntoIter = std::vec::IntoIter<T>;

    fn into_iter(self) -> Self::IntoIter {
        self.items.into_iter()
    }
}

impl<'a, T> IntoIterator for &'a Vec<T> {
    type Item = &'a T;
    type IntoIter = std::slice::Iter<'a, T>;

    fn into_iter(self) -> Self::IntoIter {
        self.items.iter()
    }
}

impl<'a, T> IntoIterator for &'a mut Vec<T> {
    type Item = &'a mut T;
    type IntoIter = std::slice::IterMut<'a, T>;

    fn into_iter(self) -> Self::IntoIter {
        self.items.iter_mut()
    }
}

/// What is written is put at the end.
impl io::Write for Vec<u8> {
    fn write(&mut self, bytes: &[u8]) -> io::Result<usize> {
        self.extend_from_slice(bytes)?;
        Ok(bytes.len())
    }

    fn flush(&mut self) -> io::Result<()> {
        Ok(())
    }
}

/// What `vec!` makes.
pub fn repeated<T: Copy>(alloc: Global, value: T, count: usize) -> Result<Vec<T>, AllocError> {
    let mut made = Vec::new(alloc);
    made.resize(count, value)?;
    Ok(made)
}

/// `collect` into a list whose growth answers.
pub trait CollectIn: Iterator + Sized {
    /// All that the iterator yields.
    fn collect_in(self, alloc: Global) -> Result<Vec<Self::Item>, AllocError> {
        let mut found = Vec::with_capacity(alloc, self.size_hint().0)?;
        for item in self {
            found.push(item)?;
        }
        Ok(found)
    }
}

impl<I: Iterator> CollectIn for I {}
