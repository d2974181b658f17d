use crate::error::Error;
use char_files::{MAX_FILE, SiteNo};

/// The lasting name of a character: the site that put it in, and how many that site had put into the text before.
#[derive(Clone, Copy, Debug, PartialEq, Eq, Hash, PartialOrd, Ord)]
pub struct Name {
    /// The site that put it in.
    pub site: u16,
    /// How many the site had put in before.
    pub offset: u32,
}

impl Name {
    pub(crate) fn of(name: char_files::Name) -> Name {
        Name {
            site: name.site().get(),
            offset: name.off(),
        }
    }

    pub(crate) fn tested(self) -> Result<char_files::Name, Error> {
        let site = SiteNo::new(self.site).ok_or(Error::NoNumber)?;
        char_files::Name::new(site, self.offset).ok_or(Error::NoNumber)
    }
}

/// The names of characters that a site put in one after the other.
#[derive(Clone, Copy, Debug, PartialEq, Eq, Hash)]
pub struct NameRange {
    /// The site that put them in.
    pub site: u16,
    /// The first one's offset.
    pub offset: u32,
    /// How many they are, one at least.
    pub len: u32,
}

impl NameRange {
    pub(crate) fn tested(self) -> Result<operations::NameRange, Error> {
        let site = SiteNo::new(self.site).ok_or(Error::NoNumber)?;
        if self.len == 0 || MAX_FILE < u64::from(self.offset) + u64::from(self.len) {
            return Err(Error::NoNumber);
        }
        Ok(operations::NameRange::new(site, self.offset, self.len))
    }
}

impl From<Name> for NameRange {
    fn from(name: Name) -> NameRange {
        NameRange {
            site: name.site,
            offset: name.offset,
            len: 1,
        }
    }
}

/// Where a character is.
#[derive(Clone, Copy, Debug, PartialEq, Eq)]
pub struct Place {
    /// How many shown characters are this one or stand before it.
    pub pos: u64,
    /// Whether it is shown itself, at `pos - 1` then.
    pub is_shown: bool,
}
