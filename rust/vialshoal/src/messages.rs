use fallible::{Global, Vec};
use std::fmt;
use std::ops::Range;
use texts::Outbox;

/// The messages of an edit, in order. Each is to be handed to the other sites.
pub struct Messages {
    outbox: Outbox,
}

impl Messages {
    pub(crate) fn none() -> Messages {
        Messages::of(Outbox::new(Global))
    }

    pub(crate) fn of(outbox: Outbox) -> Messages {
        Messages { outbox }
    }

    /// How many there are.
    pub fn len(&self) -> usize {
        self.outbox.len()
    }

    /// Whether there is none.
    pub fn is_empty(&self) -> bool {
        self.outbox.is_empty()
    }

    /// The bytes of one, from 0.
    pub fn get(&self, index: usize) -> Option<&[u8]> {
        (index < self.outbox.len()).then(|| self.outbox.message(index))
    }

    /// All, in order.
    pub fn iter(&self) -> MessagesIter<'_> {
        self.into_iter()
    }
}

impl fmt::Debug for Messages {
    fn fmt(&self, f: &mut fmt::Formatter<'_>) -> fmt::Result {
        f.debug_list().entries(self).finish()
    }
}

impl<'a> IntoIterator for &'a Messages {
    type Item = &'a [u8];
    type IntoIter = MessagesIter<'a>;

    fn into_iter(self) -> MessagesIter<'a> {
        MessagesIter {
            messages: self,
            left: 0..self.len(),
        }
    }
}

/// Messages, one after the other.
#[derive(Clone, Debug)]
pub struct MessagesIter<'a> {
    messages: &'a Messages,
    left: Range<usize>,
}

impl<'a> Iterator for MessagesIter<'a> {
    type Item = &'a [u8];

    fn next(&mut self) -> Option<&'a [u8]> {
        self.messages.get(self.left.next()?)
    }

    fn size_hint(&self) -> (usize, Option<usize>) {
        self.left.size_hint()
    }
}

impl ExactSizeIterator for MessagesIter<'_> {}

/// What a text has past some fronts, in chunks: many operations in few bytes each.
#[derive(Debug)]
pub struct Chunks {
    chunks: Vec<Vec<u8>>,
}

impl Chunks {
    pub(crate) fn of(chunks: Vec<Vec<u8>>) -> Chunks {
        Chunks { chunks }
    }

    /// How many there are.
    pub fn len(&self) -> usize {
        self.chunks.len()
    }

    /// Whether there is none.
    pub fn is_empty(&self) -> bool {
        self.chunks.is_empty()
    }

    /// All, in order.
    pub fn iter(&self) -> ChunksIter<'_> {
        self.into_iter()
    }
}

impl<'a> IntoIterator for &'a Chunks {
    type Item = &'a [u8];
    type IntoIter = ChunksIter<'a>;

    fn into_iter(self) -> ChunksIter<'a> {
        ChunksIter {
            left: self.chunks.iter(),
        }
    }
}

/// Chunks, one after the other.
#[derive(Clone, Debug)]
pub struct ChunksIter<'a> {
    left: std::slice::Iter<'a, Vec<u8>>,
}

impl<'a> Iterator for ChunksIter<'a> {
    type Item = &'a [u8];

    fn next(&mut self) -> Option<&'a [u8]> {
        self.left.next().map(Vec::as_slice)
    }

    fn size_hint(&self) -> (usize, Option<usize>) {
        self.left.size_hint()
    }
}

impl ExactSizeIterator for ChunksIter<'_> {}
