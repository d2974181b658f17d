use crate::alloc::{AllocFailed, Global};
use std::borrow::Borrow;
use std::cmp::Ordering;

/// A map in the order of its keys, whose growth answers whether there was memory. Rust's own doesn't answer.
///
/// It is an AA tree (Andersson, 1993) over one list: a node names its children by their indices in the list, and never moves within
/// the tree. So whatever the keys are, a call compares at most twice the logarithm of their number, and only the list takes memory.
#[derive(Debug)]
pub struct BTreeMap<K, V> {
    nodes: Vec<Node<K, V>>,
    root: Option<usize>,
}

#[derive(Debug)]
struct Node<K, V> {
    key: K,
    value: V,
    less: Option<usize>,
    greater: Option<usize>,
    // 1 without children. A child of lesser keys is one level below, one of greater keys at most one, and its own such child is below.
    level: u8,
}

impl<K, V> Default for BTreeMap<K, V> {
    fn default() -> BTreeMap<K, V> {
        BTreeMap::new(Global)
    }
}

impl<K, V> BTreeMap<K, V> {
    /// A map of nothing, for which no memory is taken.
    pub const fn new(_alloc: Global) -> BTreeMap<K, V> {
        BTreeMap {
            nodes: Vec::new(),
            root: None,
        }
    }

    // The level of a node, 0 of none.
    fn level(&self, at: Option<usize>) -> u8 {
        at.map_or(0, |at| self.nodes[at].level)
    }

    // A node with its child of lesser keys, where that isn't below it, turned around: the one that stands above then.
    fn skewed(&mut self, at: usize) -> usize {
        let Some(less) = self.nodes[at].less else {
            return at;
        };
        if self.nodes[less].level != self.nodes[at].level {
            return at;
        }
        self.nodes[at].less = self.nodes[less].greater;
        self.nodes[less].greater = Some(at);
        less
    }

    // A node with two of greater keys at its level, of which the first is raised: the one that stands above then.
    fn split(&mut self, at: usize) -> usize {
        let Some(greater) = self.nodes[at].greater else {
            return at;
        };
        if self.level(self.nodes[greater].greater) != self.nodes[at].level {
            return at;
        }
        self.nodes[at].greater = self.nodes[greater].less;
        self.nodes[greater].less = Some(at);
        self.nodes[greater].level += 1;
        greater
    }
}

impl<K: Ord, V> BTreeMap<K, V> {
    // Where a key's node stands in the list.
    fn place<Q: Ord + ?Sized>(&self, key: &Q) -> Option<usize>
    where
        K: Borrow<Q>,
    {
        let mut next = self.root;
        while let Some(at) = next {
            let node = &self.nodes[at];
            next = match key.cmp(node.key.borrow()) {
                Ordering::Less => node.less,
                Ordering::Equal => return Some(at),
                Ordering::Greater => node.greater,
            };
        }
        None
    }

    /// A key's value.
    pub fn get<Q: Ord + ?Sized>(&self, key: &Q) -> Option<&V>
    where
        K: Borrow<Q>,
    {
        Some(&self.nodes[self.place(key)?].value)
    }

    /// A key's value, to be changed.
    pub fn get_mut<Q: Ord + ?Sized>(&mut self, key: &Q) -> Option<&mut V>
    where
        K: Borrow<Q>,
    {
        let at = self.place(key)?;
        Some(&mut self.nodes[at].value)
    }

    /// Whether a key has a value.
    pub fn contains_key<Q: Ord + ?Sized>(&self, key: &Q) -> bool
    where
        K: Borrow<Q>,
    {
        self.place(key).is_some()
    }

    /// Puts a value under a key, and gives back the one that was there. Where memory is refused, both are given back, and all is as before.
    pub fn insert(&mut self, key: K, value: V) -> Result<Option<V>, AllocFailed<(K, V)>> {
        if let Some(held) = self.get_mut(&key) {
            return Ok(Some(std::mem::replace(held, value)));
        }
        if self.nodes.try_reserve(1).is_err() {
            return Err(AllocFailed {
                value: (key, value),
            });
        }
        let new = self.nodes.len();
        self.nodes.push(Node {
            key,
            value,
            less: None,
            greater: None,
            level: 1,
        });
        self.root = Some(self.hung(self.root, new));
        Ok(None)
    }

    // Hangs a new node below this one: the one that stands above then.
    fn hung(&mut self, below: Option<usize>, new: usize) -> usize {
        let Some(at) = below else {
            return new;
        };
        if self.nodes[new].key < self.nodes[at].key {
            self.nodes[at].less = Some(self.hung(self.nodes[at].less, new));
        } else {
            self.nodes[at].greater = Some(self.hung(self.nodes[at].greater, new));
        }
        let at = self.skewed(at);
        self.split(at)
    }
}
