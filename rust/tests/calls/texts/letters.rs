//! Letters that are taken in at once, and messages that are let go.

use super::is;
use super::site::{Site, add_site, append};
use char_files::{Anchor, Name, SiteNo, TextNo};
use fallible::{Fail, Global, Vec};
use looks::Looks;
use operations::{MAX_INSERT, Typing};
use texts::{Outbox, Replica};

// Letters that a site types in a text: the text, the site, the first one's seq and stamp, the length of the site's file, the cause,
// and the letters.
type Row = (u16, u16, u32, u64, u32, Option<(u16, u32)>, &'static [u8]);

// Rows, and whether text 1 takes each in.
const ROWS: &[(&str, Row, bool)] = &[
    ("another text", (2, 1, 1, 1, 0, None, b"no"), false),
    ("the first letters", (1, 1, 1, 1, 0, None, b"abc"), true),
    ("the same again", (1, 1, 1, 1, 0, None, b"abc"), false),
    (
        "others under their seqs",
        (1, 1, 2, 2, 1, Some((1, 0)), b"xy"),
        false,
    ),
    ("a gap in seq", (1, 1, 5, 5, 3, Some((1, 2)), b"no"), false),
    (
        "not where the file ends",
        (1, 1, 4, 4, 4, Some((1, 2)), b"no"),
        false,
    ),
    (
        "the stamp of its cause",
        (1, 2, 1, 3, 0, Some((1, 2)), b"no"),
        false,
    ),
    (
        "a cause to come",
        (1, 2, 1, 9, 0, Some((1, 3)), b"no"),
        false,
    ),
    (
        "of another site",
        (1, 2, 1, 4, 0, Some((1, 2)), b"de"),
        true,
    ),
    (
        "the stamp of the one before",
        (1, 1, 4, 3, 3, Some((1, 0)), b"no"),
        false,
    ),
    (
        "after a gap in stamps",
        (1, 1, 4, 9, 3, Some((1, 0)), b"XY"),
        true,
    ),
];

// Each character that is shown in the end: its name and its byte.
const SHOWN: &[(u16, u32, u8)] = &[
    (1, 0, b'a'),
    (1, 3, b'X'),
    (1, 4, b'Y'),
    (1, 1, b'b'),
    (1, 2, b'c'),
    (2, 0, b'd'),
    (2, 1, b'e'),
];

fn site(number: u16) -> Result<SiteNo, Fail> {
    Ok(SiteNo::new(number).ok_or("a site")?)
}

fn anchor(cause: Option<(u16, u32)>) -> Result<Anchor, Fail> {
    let Some((number, off)) = cause else {
        return Ok(Anchor::Root);
    };
    Ok(Anchor::At(Name::new(site(number)?, off).ok_or("a name")?))
}

fn typing_of((text, number, seq, stamp, at, cause, _): Row) -> Result<Typing, Fail> {
    Ok(Typing {
        text: TextNo::new(text).ok_or("a text")?,
        site: site(number)?,
        seq,
        stamp,
        at,
        cause: anchor(cause)?,
        looks: Looks::plain(),
    })
}

// Whether so many letters are taken in at once, and each has a spelling.
fn have_room(typing: &Typing, bytes: &[u8]) -> bool {
    !bytes.is_empty() && bytes.len() <= MAX_INSERT && bytes.len() as u64 <= typing.room()
}

fn take(replica: &mut Replica, typing: &Typing, bytes: &[u8]) -> Result<bool, Fail> {
    if !have_room(typing, bytes) || replica.waiting() != 0 {
        return Err("no room".into());
    }
    Ok(replica.take_letters(typing, bytes)?)
}

// Hands letters in, and checks that all are taken in or none.
fn hands(replica: &mut Replica, (what, row, want): (&'static str, Row, bool)) -> Result<(), Fail> {
    let before = replica.taken_len();
    let took = take(replica, &typing_of(row)?, row.6)?;
    is(took == want, what)?;
    let len = if want { row.6.len() as u64 } else { 0 };
    is(replica.taken_len() == before.saturating_add(len), what)?;
    is(replica.waiting() == 0, what)
}

fn shows(replica: &Replica) -> Result<(), Fail> {
    let mut shown = replica.shown();
    for (site, off, byte) in SHOWN {
        let char = shown.next().ok_or("a character")?;
        let name = (char.name.site().get(), char.name.off());
        is((name, char.byte) == ((*site, *off), *byte), "what is shown")?;
    }
    is(shown.next().is_none(), "the end")
}

fn first(sites: &mut [Site]) -> Result<&mut Site, Fail> {
    Ok(sites.first_mut().ok_or("a site")?)
}

fn takes_rows(replica: &mut Replica) -> Result<(), Fail> {
    for row in ROWS {
        hands(replica, *row)?;
    }
    shows(replica)
}

#[test]
fn letters_are_taken_in_at_once() -> Result<(), Fail> {
    let mut sites = Vec::new(fallible::Global);
    add_site(fallible::Global, &mut sites, 9)?;
    takes_rows(&mut first(&mut sites)?.replica)
}

// The message of the first Insert of a text, as the format's description spells it.
const FIRST: &[u8] = b"OT\x01\x01\x00\x01\x00\x01\x00\x00\x00\x01\x00\x00\x00\x00\x00\x00\x00\x01\
    \x00\x00\x00\x00\x00\x00\x00\x00\x00\x00\x10Oberon10.Scn.Fnt\x01\x00\x00\x06Oberon";

// Site 1 types this into text 1, which is empty.
fn send(alloc: Global, outbox: &mut Outbox, bytes: &[u8]) -> Result<(), Fail> {
    let mut sites = Vec::new(alloc);
    add_site(alloc, &mut sites, 1)?;
    let sent = append(alloc, &mut first(&mut sites)?.replica, bytes, outbox)?;
    is(sent == Ok(1), "one message")
}

// An empty outbox gets that message.
fn sends_first(alloc: Global, outbox: &mut Outbox) -> Result<(), Fail> {
    is(outbox.is_empty() && outbox.len() == 0, "no message")?;
    send(alloc, outbox, b"Oberon")?;
    if outbox.len() != 1 {
        return Err("one message".into());
    }
    is(outbox.message(0) == FIRST, "the message")
}

fn begins_again(alloc: Global, outbox: &mut Outbox) -> Result<(), Fail> {
    sends_first(alloc, outbox)?;
    send(alloc, outbox, b"X")?;
    is(outbox.len() == 2, "two messages")?;
    outbox.clear();
    sends_first(alloc, outbox)
}

#[test]
fn messages_are_let_go() -> Result<(), Fail> {
    let mut outbox = Outbox::new(fallible::Global);
    begins_again(fallible::Global, &mut outbox)
}
