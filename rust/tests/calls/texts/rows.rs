//! Few calls, whose changes were worked out by hand.
use super::is;
use super::plain::spells;
use super::site::{Since, Site, add_site, append, ask, follow, hand, types_at};
use fallible::{Fail, Global, Vec};
use list_changes::{Change, ChangeKind};
use looks::Refusal;
use texts::{EditRefusal, Outbox, Took};

// Site 1 types `abcd`, and after its `b` site 2 types `X`; site 1, who hasn't heard of that, deletes `bc`.
fn writes_before(alloc: Global, site: &mut Site, outbox: &mut Outbox) -> Result<(), Fail> {
    let sent = append(alloc, &mut site.replica, b"abcd", outbox)?;
    is(sent == Ok(1), "abcd")?;
    ask(site)?;
    is(spells(&site.list, b"abcd"), "abcd")
}

fn writes_between(alloc: Global, site: &mut Site, outbox: &mut Outbox) -> Result<(), Fail> {
    hears(site, outbox, 0, 0)?;
    types_at(alloc, &mut site.replica, 2, b"X", outbox)?;
    ask(site)?;
    is(spells(&site.list, b"abXcd"), "abXcd")
}

fn deletes_bc(site: &mut Site, outbox: &mut Outbox) -> Result<(), Fail> {
    if site.replica.shown_len() < 3 {
        return Err("three characters".into());
    }
    is(site.replica.delete(1, 3, outbox) == Ok(1), "bc goes")?;
    ask(site)?;
    is(spells(&site.list, b"ad"), "ad")
}

// Takes a message in, after which so many are that waited.
fn hears(site: &mut Site, outbox: &Outbox, index: usize, drained: u32) -> Result<(), Fail> {
    let took = Ok(Took::Taken {
        drained,
        dropped: 0,
        stopped: false,
    });
    is(hand(&mut site.replica, outbox, index) == took, "taken in")
}

fn are_of_one(changes: &[Change], kind: ChangeKind) -> bool {
    changes.iter().all(|change| {
        change.kind == kind && change.end.checked_sub(change.beg) == Some(1)
    })
}

// X stands between the two that go: so each goes by itself.
fn deletes_around(site: &mut Site, outbox: &Outbox) -> Result<(), Fail> {
    hears(site, outbox, 2, 0)?;
    let changes = site.replica.changes();
    is(changes.len() == 2, "two go")?;
    is(are_of_one(&changes, ChangeKind::Delete), "each alone")?;
    follow(site, &changes)?;
    is(spells(&site.list, b"aXd"), "aXd")
}

// A copy of site 1's that lost all: what waits shows it that it is behind. Nothing is told until `abcd` comes, and
// then X, too.
fn is_behind(alloc: Global, site: &mut Site, outbox: &mut Outbox) -> Result<(), Fail> {
    let waits = hand(&mut site.replica, outbox, 1);
    is(waits == Ok(Took::Waits), "X waits")?;
    is(ask(site)? == Since::None, "nothing yet")?;
    let behind = Err(EditRefusal::Whole(Refusal::Behind));
    let sent = append(alloc, &mut site.replica, b"abcd", outbox)?;
    is(sent == behind, "behind")?;
    is(ask(site)? == Since::None, "nothing yet")?;
    hears(site, outbox, 0, 1)?;
    is(ask(site)? == Since::Many, "abcd and X")?;
    is(spells(&site.list, b"abXcd"), "abXcd")?;
    deletes_around(site, outbox)
}

fn go_on(alloc: Global, sites: &mut [Site], outbox: &mut Outbox) -> Result<(), Fail> {
    let (one, others) = sites.split_first_mut().ok_or("site 1")?;
    let (two, others) = others.split_first_mut().ok_or("site 2")?;
    writes_before(alloc, one, outbox)?;
    writes_between(alloc, two, outbox)?;
    deletes_bc(one, outbox)?;
    deletes_around(two, outbox)?;
    is_behind(alloc, others.first_mut().ok_or("site 1 again")?, outbox)
}

fn begin(alloc: Global, sites: &mut Vec<Site>, outbox: &mut Outbox) -> Result<(), Fail> {
    for number in [1, 2, 1] {
        add_site(alloc, sites, number)?;
    }
    go_on(alloc, sites, outbox)
}

#[test]
fn a_delete_around_what_came() -> Result<(), Fail> {
    let alloc = fallible::Global;
    begin(alloc, &mut Vec::new(alloc), &mut Outbox::new(alloc))
}
