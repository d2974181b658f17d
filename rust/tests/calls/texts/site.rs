//! A site's replica, with a plain list that is kept by the changes which it tells.
use super::is;
use super::plain::{Entry, apply_all, learn_all, shows};
use char_files::{Buffer, SiteNo, TextNo};
use fallible::{Fail, Global, Vec};
use list_changes::{Change, ChangeKind};
use looks::{Looks, Refusal};
use operations::Kind;
use texts::{EditRefusal, Outbox, Replica, Took};

pub(super) struct Site {
    pub(super) replica: Replica,
    pub(super) list: Vec<Entry>,
    // How many operations had been taken in when the changes were last asked for.
    told: u64,
    // How many messages were handed in in their turn.
    pub(super) heard: usize,
    // How many calls there were.
    pub(super) calls: u32,
}

// How many operations were taken in since the changes were last asked for, and of one alone what it was, and whether
// it left all that is shown.
#[derive(Clone, Copy, PartialEq, Eq)]
pub(super) enum Since {
    None,
    One(ChangeKind, bool),
    Many,
}

// Copies of one text, at the sites 1 to `count`.
pub(super) fn add_sites(alloc: Global, sites: &mut Vec<Site>, count: u16) -> Result<(), Fail> {
    for number in 1..=count {
        add_site(alloc, sites, number)?;
    }
    Ok(())
}

pub(super) fn add_site(alloc: Global, sites: &mut Vec<Site>, number: u16) -> Result<(), Fail> {
    let text = TextNo::new(1).ok_or("a text")?;
    let number = SiteNo::new(number).ok_or("a site")?;
    let site = Site {
        replica: Replica::new(alloc, text, number)?,
        list: Vec::new(alloc),
        told: 0,
        heard: 0,
        calls: 0,
    };
    sites.push(site)?;
    Ok(())
}

// Characters of the default looks.
fn letters(alloc: Global, bytes: &[u8]) -> Result<Buffer, Refusal> {
    let mut buffer = Buffer::new(alloc);
    buffer.push_all(bytes, &Looks::plain())?;
    Ok(buffer)
}

// Types these at the end, and answers what the call does.
pub(super) fn append(
    alloc: Global,
    replica: &mut Replica,
    bytes: &[u8],
    outbox: &mut Outbox,
) -> Result<Result<u32, EditRefusal>, Fail> {
    let letters = letters(alloc, bytes)?;
    Ok(replica.append(&letters, outbox))
}

// Types these at a position.
pub(super) fn types_at(
    alloc: Global,
    replica: &mut Replica,
    pos: u64,
    bytes: &[u8],
    outbox: &mut Outbox,
) -> Result<(), Fail> {
    let letters = letters(alloc, bytes)?;
    if replica.shown_len() < pos {
        return Err("a place".into());
    }
    is(replica.insert(pos, &letters, outbox) == Ok(1), "an Insert")
}

// Hands a message in, which there is.
pub(super) fn hand(replica: &mut Replica, outbox: &Outbox, index: usize) -> Result<Took, Refusal> {
    if outbox.len() <= index {
        return Err(Refusal::BadEvent);
    }
    replica.take(outbox.message(index))
}

// What the changes of the last operation that was taken in are to be.
fn kind_of_last(replica: &Replica) -> Result<ChangeKind, Fail> {
    let last = replica.taken_len().checked_sub(1).ok_or("an operation")?;
    let op = replica.taken(last)?;
    Ok(match op.kind() {
        Kind::Insert { .. } | Kind::Restore { .. } => ChangeKind::Insert,
        Kind::Delete { .. } => ChangeKind::Delete,
        Kind::ChangeLooks { .. } => ChangeKind::Replace,
    })
}

fn are_all(changes: &[Change], kind: ChangeKind) -> bool {
    changes.iter().all(|change| change.kind == kind)
}

// One operation was taken in. It tells changes of its kind alone, and some just where it changed what is shown.
fn one_tells(site: &Site, changes: &[Change]) -> Result<Since, Fail> {
    let kind = kind_of_last(&site.replica)?;
    is(are_all(changes, kind), "its kind")?;
    let idle = shows(&site.replica, &site.list);
    is(idle == changes.is_empty(), "none for nothing")?;
    Ok(Since::One(kind, idle))
}

// So many operations told this.
fn tell(site: &Site, new: u64, changes: &[Change]) -> Result<Since, Fail> {
    match new {
        0 => {
            is(changes.is_empty(), "none without an operation")?;
            Ok(Since::None)
        }
        1 => one_tells(site, changes),
        _ => Ok(Since::Many),
    }
}

// The list follows the changes, and comes to what is shown.
pub(super) fn follow(site: &mut Site, changes: &[Change]) -> Result<Since, Fail> {
    let taken = site.replica.taken_len();
    let since = tell(site, taken.saturating_sub(site.told), changes)?;
    site.told = taken;
    apply_all(&mut site.list, changes)?;
    learn_all(&mut site.list, &site.replica)?;
    Ok(since)
}

// Asks for the changes, which are then told and no longer kept.
pub(super) fn ask(site: &mut Site) -> Result<Since, Fail> {
    let changes = site.replica.changes();
    is(site.replica.changes().is_empty(), "told once")?;
    follow(site, &changes)
}
