use super::is;
use super::shown::parts_of;
use super::told::{Does, Parts, Told, anchor, is_ready, site, take, take_op};
use char_files::TextNo;
use fallible::{Fail, Global, Vec};
use list_changes::{Change, ChangeKind};
use looks::{Colour, Looks, Refusal};
use operations::{Kind, MAX_INSERT, Op, Typing};
use taken_text::TakenText;

// What a site types letter by letter, told as one Insert of all, and its colour; or a Delete.
type Row = (Told, u8);

// What changes: the kind, and from where to where.
type Changed = (ChangeKind, u64, u64);

const INSERT: ChangeKind = ChangeKind::Insert;

// Rows, each with the changes that it makes. What is shown after each stands beside it.
const ROWS: &[(Row, &[Changed])] = &[
    // abcd
    (
        ((1, 1, 1, Does::Insert(None, 0, b"abcd")), 1),
        &[
            (INSERT, 0, 1),
            (INSERT, 1, 2),
            (INSERT, 2, 3),
            (INSERT, 3, 4),
        ],
    ),
    // abXYcd: amid the run of another site
    (
        ((2, 1, 5, Does::Insert(Some((1, 1)), 0, b"XY")), 1),
        &[(INSERT, 2, 3), (INSERT, 3, 4)],
    ),
    // abXYcdef: at the end, after a gap in stamps
    (
        ((1, 5, 10, Does::Insert(Some((1, 3)), 4, b"ef")), 1),
        &[(INSERT, 6, 7), (INSERT, 7, 8)],
    ),
    // abXYPQcdef: the X has a greater stamp than the P, and the c the same but a lower site
    (
        ((3, 1, 3, Does::Insert(Some((1, 1)), 0, b"PQ")), 3),
        &[(INSERT, 4, 5), (INSERT, 5, 6)],
    ),
    // abXYPQcde
    (
        ((1, 7, 12, Does::Delete((1, 5))), 1),
        &[(ChangeKind::Delete, 9, 10)],
    ),
    // abXYPQcdegh: below the hidden f
    (
        ((1, 8, 13, Does::Insert(Some((1, 5)), 6, b"gh")), 1),
        &[(INSERT, 9, 10), (INSERT, 10, 11)],
    ),
];

// Each character that is shown in the end: its name, its byte, its colour.
const SHOWN: &[(Parts, u8, u8)] = &[
    ((1, 0), b'a', 1),
    ((1, 1), b'b', 1),
    ((2, 0), b'X', 1),
    ((2, 1), b'Y', 1),
    ((3, 0), b'P', 3),
    ((3, 1), b'Q', 3),
    ((1, 2), b'c', 1),
    ((1, 3), b'd', 1),
    ((1, 4), b'e', 1),
    ((1, 6), b'g', 1),
    ((1, 7), b'h', 1),
];

fn looks(colour: u8) -> Result<Looks, Fail> {
    Ok(Looks {
        colour: Colour::new(colour).ok_or("a colour")?,
        ..Looks::plain()
    })
}

fn typing_of((told, colour): Row) -> Result<Typing, Fail> {
    let (number, seq, stamp, Does::Insert(cause, at, _)) = told else {
        return Err("no letters".into());
    };
    Ok(Typing {
        text: TextNo::new(1).ok_or("a text")?,
        site: site(number)?,
        seq,
        stamp,
        at,
        cause: anchor(cause)?,
        looks: looks(colour)?,
    })
}

// Whether so many letters are taken in at once, and each has a spelling.
fn have_room(typing: &Typing, bytes: &[u8]) -> bool {
    !bytes.is_empty() && bytes.len() <= MAX_INSERT && bytes.len() as u64 <= typing.room()
}

// Whether the next letter that is typed there is ready, whichever it is.
fn is_letter_ready(
    text: &TakenText,
    alloc: Global,
    typing: &Typing,
    byte: u8,
) -> Result<bool, Refusal> {
    let op = typing.letter(alloc, byte)?;
    Ok(is_ready(text, &op))
}

// Takes letters in, if the first one is ready.
fn add_letters(
    text: &mut TakenText,
    alloc: Global,
    typing: &Typing,
    bytes: &[u8],
) -> Result<(), Fail> {
    if !have_room(typing, bytes) {
        return Err("no room".into());
    }
    if !is_letter_ready(text, alloc, typing, bytes[0])? {
        return Err("not ready".into());
    }
    text.add_letters(typing, bytes)?;
    Ok(())
}

fn add_row(text: &mut TakenText, alloc: Global, row: Row) -> Result<(), Fail> {
    match (row.0).3 {
        Does::Insert(_, _, bytes) => add_letters(text, alloc, &typing_of(row)?, bytes),
        _ => take(text, alloc, row.0),
    }
}

// What a letter hangs on: the one before it.
fn cause_of(site: u16, at: u32, n: u32, first: Option<Parts>) -> Option<Parts> {
    match n.checked_sub(1) {
        None => first,
        Some(before) => Some((site, at.saturating_add(before))),
    }
}

fn kind_of(
    alloc: Global,
    cause: Option<Parts>,
    at: u32,
    colour: u8,
    byte: u8,
) -> Result<Kind, Fail> {
    Ok(Kind::Insert {
        cause: anchor(cause)?,
        at,
        looks: looks(colour)?,
        bytes: Vec::from_slice(alloc, &[byte])?,
    })
}

// The Insert of a row's letter of this index.
fn letter_in(alloc: Global, (told, colour): Row, n: u32, byte: u8) -> Result<Op, Fail> {
    let (number, seq, stamp, Does::Insert(first, at, _)) = told else {
        return Err("no letters".into());
    };
    let text = TextNo::new(1).ok_or("a text")?;
    let site = site(number)?;
    let cause = cause_of(number, at, n, first);
    let kind = kind_of(alloc, cause, at.saturating_add(n), colour, byte)?;
    let (seq, stamp) = (seq.saturating_add(n), stamp.saturating_add(u64::from(n)));
    Ok(Op::new(text, site, seq, stamp, kind).ok_or("an operation")?)
}

fn take_one_by_one(text: &mut TakenText, alloc: Global, row: Row) -> Result<(), Fail> {
    let Does::Insert(_, _, bytes) = (row.0).3 else {
        return take(text, alloc, row.0);
    };
    let mut n = 0u32;
    for byte in bytes {
        take_op(text, letter_in(alloc, row, n, *byte)?)?;
        n = n.saturating_add(1);
    }
    Ok(())
}

fn are_these(changes: &[Change], want: &[Changed]) -> bool {
    let mut left = changes.iter();
    for (kind, beg, end) in want {
        let Some(change) = left.next() else {
            return false;
        };
        if (change.kind, change.beg, change.end) != (*kind, *beg, *end) {
            return false;
        }
    }
    left.next().is_none()
}

fn tells(text: &mut TakenText, want: &[Changed]) -> Result<(), Fail> {
    is(are_these(&text.changes(), want), "what changed")
}

fn shows(text: &TakenText) -> Result<(), Fail> {
    let mut shown = text.shown();
    for want in SHOWN {
        let char = shown.next().ok_or("a character")?;
        is(parts_of(&char) == *want, "what is shown")?;
    }
    is(shown.next().is_none(), "the end")
}

fn is_typed_at_once(text: &mut TakenText, alloc: Global) -> Result<(), Fail> {
    for (row, changes) in ROWS {
        add_row(text, alloc, *row)?;
        tells(text, changes)?;
    }
    shows(text)
}

fn is_typed_one_by_one(text: &mut TakenText, alloc: Global) -> Result<(), Fail> {
    for (row, changes) in ROWS {
        take_one_by_one(text, alloc, *row)?;
        tells(text, changes)?;
    }
    shows(text)
}

#[test]
fn letters_are_added_at_once() -> Result<(), Fail> {
    let mut text = TakenText::new(fallible::Global)?;
    is_typed_at_once(&mut text, fallible::Global)
}

// What is compared with is also what a text shows and tells that took the letters in one by one.
#[test]
fn letters_are_added_one_by_one() -> Result<(), Fail> {
    let mut text = TakenText::new(fallible::Global)?;
    is_typed_one_by_one(&mut text, fallible::Global)
}
