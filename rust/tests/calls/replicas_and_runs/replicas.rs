//! What several tests of replicas call.
use super::is;
use char_files::{Buffer, SiteNo, TextNo};
use fallible::{Fail, Global};
use looks::{Looks, Refusal};
use texts::{EditRefusal, Outbox, Replica, Took};

pub(super) const TAKEN: Result<Took, Refusal> = Ok(Took::Taken {
    drained: 0,
    dropped: 0,
    stopped: false,
});

// A site's copy of a text.
pub(super) fn replica_of(alloc: Global, text: u16, site: u16) -> Result<Replica, Fail> {
    let text = TextNo::new(text).ok_or("a text")?;
    let site = SiteNo::new(site).ok_or("a site")?;
    Ok(Replica::new(alloc, text, site)?)
}

pub(super) fn site(number: u16) -> Result<SiteNo, Fail> {
    Ok(SiteNo::new(number).ok_or("a site")?)
}

// Characters of the default looks.
pub(super) fn letters(alloc: Global, bytes: &[u8]) -> Result<Buffer, Refusal> {
    let mut buffer = Buffer::new(alloc);
    buffer.push_all(bytes, &Looks::plain())?;
    Ok(buffer)
}

// Types characters of the default looks at the end.
pub(super) fn appends(
    alloc: Global,
    replica: &mut Replica,
    bytes: &[u8],
    outbox: &mut Outbox,
    want: Result<u32, EditRefusal>,
) -> Result<(), Fail> {
    let letters = letters(alloc, bytes)?;
    is(replica.append(&letters, outbox) == want, "an append")
}

// Hands a message in that is given in hex.
pub(super) fn takes(
    alloc: Global,
    replica: &mut Replica,
    hex: &str,
    want: Result<Took, Refusal>,
) -> Result<(), Fail> {
    let message = hex::decode(alloc, hex)?;
    is(replica.take(&message) == want, "an answer")
}
