//! What a replica shows and tells that took in a message, and a merge that is refused.
use super::is;
use super::replicas::{TAKEN, appends, replica_of, site, takes};
use char_files::{Anchor, Name};
use fallible::{Fail, Global};
use looks::{Looks, Refusal};
use texts::{MergeRefusal, Outbox, Replica, Shown};

fn at((number, off): (u16, u32)) -> Result<Anchor, Fail> {
    Ok(Anchor::At(Name::new(site(number)?, off).ok_or("a name")?))
}

// Site 2 types `two` at the start.
const TWO: &str =
    "4f5401010001000200000001000000000000000100000000000000000000104f6265726f6e31302e53636e2e466e740100000374776f";

// The characters shown, each by its byte, its site and its place in the site's file. All have the default looks.
const SHOWN: &[(u8, u16, u32)] = &[
    (b't', 2, 0),
    (b'w', 2, 1),
    (b'o', 2, 2),
    (b'o', 1, 0),
    (b'n', 1, 1),
    (b'e', 1, 2),
];

// These characters, and no more.
fn shows(mut shown: Shown<'_>, wants: &[(u8, u16, u32)]) -> Result<(), Fail> {
    for (byte, site, off) in wants {
        let char = shown.next().ok_or("a character")?;
        let name = (char.name.site().get(), char.name.off());
        is(name == (*site, *off), "a name")?;
        is(
            char.byte == *byte && char.looks == Looks::plain(),
            "a character",
        )?;
    }
    is(shown.next().is_none(), "all of them")
}

// The characters shown from a position to another, where the text has these.
fn between(replica: &Replica, beg: u64, end: u64) -> Option<Shown<'_>> {
    if end < beg || replica.shown_len() < end {
        return None;
    }
    Some(replica.shown_between(beg, end))
}

fn shows_all(replica: &Replica) -> Result<(), Fail> {
    shows(replica.shown(), SHOWN)?;
    shows(between(replica, 2, 4).ok_or("a stretch")?, &SHOWN[2..4])?;
    shows(between(replica, 6, 6).ok_or("nothing")?, &[])
}

// What a character hangs on that is typed at this position.
fn anchor_at(replica: &Replica, pos: u64) -> Option<Anchor> {
    if replica.shown_len() < pos {
        return None;
    }
    Some(replica.anchor_after(pos))
}

// Names, and how many shown characters stand at or before each.
const PLACES: &[((u16, u32), Option<u64>)] = &[
    ((2, 0), Some(1)),
    ((1, 0), Some(4)),
    ((1, 3), None),
    ((3, 0), None),
];

fn has_its_places(replica: &Replica) -> Result<(), Fail> {
    for (parts, place) in PLACES {
        is(replica.position(at(*parts)?) == *place, "a place")?;
    }
    is(replica.position(Anchor::Root) == Some(0), "the root")
}

fn has_its_anchors(replica: &Replica) -> Result<(), Fail> {
    let (inside, end) = (at((2, 2))?, at((1, 2))?);
    is(anchor_at(replica, 0) == Some(Anchor::Root), "the root")?;
    is(anchor_at(replica, 3) == Some(inside), "inside")?;
    is(anchor_at(replica, 6) == Some(end), "at the end")?;
    is(anchor_at(replica, 7).is_none(), "after the end")
}

// Sites, and how many operations of each were taken in.
const FRONTS: &[(u16, u32)] = &[(1, 1), (2, 1), (3, 0)];

fn has_its_fronts(replica: &Replica) -> Result<(), Fail> {
    for (number, front) in FRONTS {
        is(replica.front(site(*number)?) == *front, "a front")?;
    }
    is(replica.waiting() == 0, "none waits")?;
    let wants = [site(1)?, site(2)?];
    is(replica.sites()?.as_slice() == wants.as_slice(), "the sites")
}

// The site and the seq of each operation, in the order of taking.
const OPERATIONS: &[(u16, u32)] = &[(1, 1), (2, 1)];

fn has_its_operations(replica: &Replica) -> Result<(), Fail> {
    is(replica.taken_len() == 2, "two operations")?;
    for place in 0..replica.taken_len() {
        let (site, seq) = replica.taken_identity(place);
        let told = (site.get(), seq);
        is(OPERATIONS.get(place as usize) == Some(&told), "an identity")?;
        let op = replica.taken(place)?;
        is(op.site() == site && op.seq() == seq, "an operation")?;
    }
    Ok(())
}

fn stands_as_told(replica: &Replica) -> Result<(), Fail> {
    shows_all(replica)?;
    has_its_places(replica)?;
    has_its_anchors(replica)?;
    has_its_operations(replica)?;
    has_its_fronts(replica)
}

// Neither takes the other's operations over.
fn stays_apart(
    alloc: Global,
    one: &mut Replica,
    two: &mut Replica,
    outbox: &mut Outbox,
) -> Result<(), Fail> {
    appends(alloc, two, b"b", outbox, Ok(1))?;
    let refused = Err(MergeRefusal::Whole(Refusal::WrongText));
    is(one.merge_from(two) == refused, "another text")?;
    is(two.merge_from(one) == refused, "another text")?;
    is(two.shown_len() == 1, "as before")?;
    stands_as_told(one)
}

fn stays_apart_from_another_text(alloc: Global, replica: &mut Replica) -> Result<(), Fail> {
    let mut other = replica_of(alloc, 2, 3)?;
    stays_apart(alloc, replica, &mut other, &mut Outbox::new(alloc))
}

fn takes_in(alloc: Global, replica: &mut Replica, outbox: &mut Outbox) -> Result<(), Fail> {
    appends(alloc, replica, b"one", outbox, Ok(1))?;
    takes(alloc, replica, TWO, TAKEN)?;
    stands_as_told(replica)?;
    stays_apart_from_another_text(alloc, replica)
}

#[test]
fn stands_as_it_is_told() -> Result<(), Fail> {
    let mut replica = replica_of(fallible::Global, 1, 1)?;
    takes_in(fallible::Global, &mut replica, &mut Outbox::new(fallible::Global))
}
