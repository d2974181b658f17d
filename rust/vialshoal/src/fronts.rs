use crate::error::Error;
use char_files::SiteNo;
use fallible::{Global, Vec};
use operations::encode;
use texts::Replica;

/// How far a site's operations go: the number of the last that is meant, 0 for none.
///
/// A site that fronts don't name has the front 0; of one that they name twice the first counts.
#[derive(Clone, Copy, Debug, PartialEq, Eq, Hash)]
pub struct Front {
    /// The site.
    pub site: u16,
    /// The number of the last of its operations that is meant.
    pub seq: u32,
}

/// The fronts as a replica takes them.
pub(crate) fn tested(fronts: &[Front]) -> Result<Vec<texts::Front>, Error> {
    let mut taken = Vec::new(Global);
    for front in fronts {
        let site = SiteNo::new(front.site).ok_or(Error::NoNumber)?;
        let front = texts::Front {
            site,
            seq: front.seq,
        };
        taken.push(front).map_err(looks::Refusal::from)?;
    }
    Ok(taken)
}

/// The messages of what a text has past some fronts, in the order in which it took them. After an error comes nothing.
pub struct Since<'a> {
    replica: &'a Replica,
    fronts: Vec<texts::Front>,
    left: std::ops::Range<u64>,
}

impl<'a> Since<'a> {
    pub(crate) fn of(replica: &'a Replica, fronts: &[Front]) -> Result<Since<'a>, Error> {
        Ok(Since {
            replica,
            fronts: tested(fronts)?,
            left: 0..replica.taken_len(),
        })
    }

    fn message(&self, place: u64) -> Result<std::vec::Vec<u8>, Error> {
        let mut message = Vec::new(Global);
        encode(&self.replica.taken(place)?, &mut message)?;
        Ok(message.into_std())
    }
}

impl Iterator for Since<'_> {
    type Item = Result<std::vec::Vec<u8>, Error>;

    fn next(&mut self) -> Option<Self::Item> {
        let (replica, fronts) = (self.replica, &self.fronts);
        let place = self.left.find(|place| {
            let (site, seq) = replica.taken_identity(*place);
            texts::front_in(fronts, site) < seq
        })?;
        let message = self.message(place);
        if message.is_err() {
            self.left = 0..0;
        }
        Some(message)
    }
}
