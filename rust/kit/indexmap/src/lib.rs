//! A map in the order in which its keys came, by the calls that are used here of the crate of this name.
#![forbid(unsafe_code)]

use fallible::{AllocError, AllocFailed, Global};
use std::collections::HashMap;
use std::hash::Hash;

/// A map in the order in which its keys came.
#[derive(Debug)]
pub struct IndexMap<K, V> {
    // Where each key's entry stands.
    places: HashMap<K, usize>,
    entries: std::vec::Vec<(K, V)>,
    // Where the one stands that was changed last: often it is asked for next, and then no key is hashed.
    last: usize,
}

impl<K: Eq + Hash + Copy, V> IndexMap<K, V> {
    /// A map of nothing, for which no memory is taken.
    pub fn new(_alloc: Global) -> IndexMap<K, V> {
        IndexMap {
            places: HashMap::new(),
            entries: std::vec::Vec::new(),
            last: 0,
        }
    }

    /// How many entries there are.
    pub fn len(&self) -> usize {
        self.entries.len()
    }

    /// Whether there is no entry.
    pub fn is_empty(&self) -> bool {
        self.entries.is_empty()
    }

    /// Whether a key has an entry.
    pub fn contains_key(&self, key: &K) -> bool {
        self.place(key).is_some()
    }

    /// A key's value.
    pub fn get(&self, key: &K) -> Option<&V> {
        self.get_full(key).map(|(_, _, value)| value)
    }

    /// A key's value, to be changed.
    pub fn get_mut(&mut self, key: &K) -> Option<&mut V> {
        self.last = self.place(key)?;
        self.get_index_mut(self.last)
    }

    // Where a key's entry stands.
    fn place(&self, key: &K) -> Option<usize> {
        match self.entries.get(self.last) {
            Some((held, _)) if held == key => Some(self.last),
            _ => self.places.get(key).copied(),
        }
    }

    /// A key's entry, and where it stands.
    pub fn get_full(&self, key: &K) -> Option<(usize, &K, &V)> {
        let at = self.place(key)?;
        let (key, value) = self.get_index(at)?;
        Some((at, key, value))
    }

    /// The entry that stands there.
    pub fn get_index(&self, at: usize) -> Option<(&K, &V)> {
        self.entries.get(at).map(|(key, value)| (key, value))
    }

    /// The value that stands there, to be changed.
    pub fn get_index_mut(&mut self, at: usize) -> Option<&mut V> {
        self.entries.get_mut(at).map(|(_, value)| value)
    }

    /// Makes room for `count` more.
    pub fn reserve(&mut self, count: usize) -> Result<(), AllocError> {
        self.entries.try_reserve(count).map_err(|_| AllocError)?;
        self.places.try_reserve(count).map_err(|_| AllocError)
    }

    /// Puts a value under a key: at the end, or in place of the one that is there, which is given back.
    pub fn insert(&mut self, key: K, value: V) -> Result<Option<V>, AllocFailed<(K, V)>> {
        if let Some(held) = self.get_mut(&key) {
            return Ok(Some(std::mem::replace(held, value)));
        }
        if self.reserve(1).is_err() {
            return Err(AllocFailed {
                value: (key, value),
            });
        }
        self.last = self.entries.len();
        self.places.insert(key, self.last);
        self.entries.push((key, value));
        Ok(None)
    }

    /// Takes out the entry that stands there; those after it move up.
    pub fn shift_remove_index(&mut self, at: usize) -> Option<(K, V)> {
        if self.entries.len() <= at {
            return None;
        }
        let (key, value) = self.entries.remove(at);
        self.places.remove(&key);
        for (place, (key, _)) in self.entries.iter().enumerate().skip(at) {
            if let Some(noted) = self.places.get_mut(key) {
                *noted = place;
            }
        }
        Some((key, value))
    }

    /// Takes out all.
    pub fn clear(&mut self) {
        self.places.clear();
        self.entries.clear();
    }

    /// The entries, in their order.
    pub fn iter(&self) -> impl Iterator<Item = (&K, &V)> {
        self.entries.iter().map(|(key, value)| (key, value))
    }

    /// The keys, in their order.
    pub fn keys(&self) -> impl Iterator<Item = &K> {
        self.entries.iter().map(|(key, _)| key)
    }

    /// The values, in their order.
    pub fn values(&self) -> impl Iterator<Item = &V> {
        self.entries.iter().map(|(_, value)| value)
    }
}
