use crate::error::Error;
use crate::fronts::Front;
use crate::names::{Name, Place};
use char_files::Anchor;
use fallible::{Global, Vec};
use looks::{Looks, Refusal};
use std::iter::FusedIterator;
use std::ops::Range;
use texts::{Replica, Shown};

/// A text, to be read: as it is, or as it was.
#[derive(Clone, Copy)]
pub struct View<'a> {
    replica: &'a Replica,
}

/// A character that is shown.
#[derive(Debug, PartialEq, Eq)]
pub struct Character {
    /// Its byte.
    pub byte: u8,
    /// Its lasting name.
    pub name: Name,
    /// What it looks like.
    pub looks: Looks,
}

impl<'a> View<'a> {
    pub(crate) fn of(replica: &'a Replica) -> View<'a> {
        View { replica }
    }

    /// The text's number.
    pub fn text(self) -> u16 {
        self.replica.text().get()
    }

    /// The site whose copy it is.
    pub fn site(self) -> u16 {
        self.replica.site().get()
    }

    /// How many characters are shown.
    pub fn len(self) -> u64 {
        self.replica.shown_len()
    }

    /// Whether none is shown.
    pub fn is_empty(self) -> bool {
        self.len() == 0
    }

    /// Whether a range lies in the text.
    pub(crate) fn test_range(self, range: &Range<u64>) -> Result<(), Error> {
        if range.start <= range.end && range.end <= self.len() {
            Ok(())
        } else {
            Err(Error::OutOfText)
        }
    }

    /// Whether so many characters are shown at least.
    pub(crate) fn test_position(self, at: u64) -> Result<(), Error> {
        if at <= self.len() {
            Ok(())
        } else {
            Err(Error::OutOfText)
        }
    }

    /// The characters of a range.
    pub fn characters(self, range: Range<u64>) -> Result<Characters<'a>, Error> {
        self.test_range(&range)?;
        Ok(Characters {
            shown: self.replica.shown_between(range.start, range.end),
        })
    }

    /// The bytes of a range.
    pub fn bytes(self, range: Range<u64>) -> Result<Bytes<'a>, Error> {
        Ok(Bytes(self.characters(range)?))
    }

    /// The names of a range's characters.
    pub fn names(self, range: Range<u64>) -> Result<Names<'a>, Error> {
        Ok(Names(self.characters(range)?))
    }

    /// The byte and the looks of the character at a position.
    pub fn character(self, at: u64) -> Result<(u8, Looks), Error> {
        if self.len() <= at {
            return Err(Error::OutOfText);
        }
        Ok(self.replica.attributes(at))
    }

    /// Where a character is that was taken in, though it may be deleted.
    pub fn find(self, name: Name) -> Result<Place, Error> {
        let pos = self
            .replica
            .position(Anchor::At(name.tested()?))
            .ok_or(Error::NoName)?;
        let is_shown = match self.replica.anchor_after(pos) {
            Anchor::Root => false,
            Anchor::At(other) => Name::of(other) == name,
        };
        Ok(Place { pos, is_shown })
    }

    /// The number of a site's last operation that was taken in, 0 for none.
    pub fn front(self, site: u16) -> Result<u32, Error> {
        let site = char_files::SiteNo::new(site).ok_or(Error::NoNumber)?;
        Ok(self.replica.front(site))
    }

    /// The fronts of all sites of which operations were taken in, ascending. The time grows with the number of operations.
    pub fn fronts(self) -> Result<std::vec::Vec<Front>, Error> {
        let sites = self.replica.sites()?;
        let mut fronts = Vec::with_capacity(Global, sites.len()).map_err(Refusal::from)?;
        for site in &sites {
            let front = Front {
                site: site.get(),
                seq: self.replica.front(*site),
            };
            fronts.push(front).map_err(Refusal::from)?;
        }
        Ok(fronts.into_std())
    }

    /// The formatted file of what is shown, which Oberon reads. It keeps looks.
    pub fn save(self) -> Result<std::vec::Vec<u8>, Error> {
        let mut file = Vec::new(Global);
        text_file::store(self.replica, &mut file)?;
        Ok(file.into_std())
    }
}

/// Characters that are shown, one after the other.
pub struct Characters<'a> {
    shown: Shown<'a>,
}

impl Iterator for Characters<'_> {
    type Item = Character;

    fn next(&mut self) -> Option<Character> {
        self.shown.next().map(|char| Character {
            byte: char.byte,
            name: Name::of(char.name),
            looks: char.looks,
        })
    }
}

impl FusedIterator for Characters<'_> {}

/// Bytes that are shown, one after the other.
pub struct Bytes<'a>(Characters<'a>);

impl Iterator for Bytes<'_> {
    type Item = u8;

    fn next(&mut self) -> Option<u8> {
        self.0.next().map(|char| char.byte)
    }
}

impl FusedIterator for Bytes<'_> {}

/// Names of characters that are shown, one after the other.
pub struct Names<'a>(Characters<'a>);

impl Iterator for Names<'_> {
    type Item = Name;

    fn next(&mut self) -> Option<Name> {
        self.0.next().map(|char| char.name)
    }
}

impl FusedIterator for Names<'_> {}
