use super::fixtures::vec_of;
use super::is;
use super::messages::{CHANGE, DELETE, FIRST, RESTORE, SECOND};
use fallible::{Fail, Global, Vec};
use looks::Refusal;
use operations::{Kind, NameSet, Op, decode, encode};

// The operation of a message; an allocation that is refused once is tried again.
fn op_in(alloc: Global, message: &[u8]) -> Result<Op, Refusal> {
    match decode(alloc, message) {
        Err(Refusal::OutOfMemory { .. }) => decode(alloc, message),
        answer => answer,
    }
}

// The operation's message; an allocation that is refused once is tried again.
fn write(op: &Op, message: &mut Vec<u8>) -> bool {
    encode(op, message).is_ok() || encode(op, message).is_ok()
}

// Whether the bytes spell no operation.
fn are_malformed(alloc: Global, bytes: &[u8]) -> bool {
    match decode(alloc, bytes) {
        Ok(_) => false,
        Err(refusal) => refusal == Refusal::Malformed,
    }
}

// What it is, a message, and what changes in it, as (index, byte).
type Changed = (&'static str, &'static [u8], &'static [(usize, u8)]);

// Messages with some bytes changed, which spell no operation.
const CHANGED: &[Changed] = &[
    ("another tag", FIRST, &[(0, b'P')]),
    ("another version", FIRST, &[(2, 2)]),
    ("kind 0", FIRST, &[(3, 0)]),
    ("kind 4", FIRST, &[(3, 4)]),
    ("kind 5", FIRST, &[(3, 5)]),
    ("text 0", FIRST, &[(5, 0)]),
    ("site 0", FIRST, &[(7, 0)]),
    ("seq 0", FIRST, &[(11, 0)]),
    ("stamp 0", FIRST, &[(19, 0)]),
    ("stamp 2^48", FIRST, &[(13, 1), (19, 0)]),
    ("offset 1 of site 0", FIRST, &[(25, 1)]),
    ("offset 2^24 of site 1", FIRST, &[(21, 1), (22, 1)]),
    ("a font of no bytes", FIRST, &[(30, 0)]),
    ("a font of 32 bytes", FIRST, &[(30, 32)]),
    ("a font that begins with a digit", FIRST, &[(31, b'1')]),
    ("a font with a blank", FIRST, &[(32, b' ')]),
    ("colour 16", FIRST, &[(47, 16)]),
    ("no bytes", FIRST, &[(50, 0)]),
    (
        "past the end of the file",
        FIRST,
        &[(27, 0xff), (28, 0xff), (29, 0xfb)],
    ),
    ("an own cause to come", SECOND, &[(29, 0)]),
    ("the next own cause to come", SECOND, &[(25, 1)]),
];

const CHANGED_NAMES: &[Changed] = &[
    ("no ranges", DELETE, &[(21, 0)]),
    ("names of site 0", DELETE, &[(23, 0)]),
    ("a range of no names", DELETE, &[(31, 0)]),
    (
        "names past the end of the file",
        DELETE,
        &[(25, 0xff), (26, 0xff), (27, 0xff), (31, 2)],
    ),
    ("nothing selected", CHANGE, &[(20, 0)]),
    ("selection 8", CHANGE, &[(20, 8)]),
    ("a Delete of version 2", DELETE, &[(2, 2)]),
    ("a ChangeLooks of version 2", CHANGE, &[(2, 2)]),
    (
        "an Insert of kind 4 and version 2",
        FIRST,
        &[(2, 2), (3, 4)],
    ),
    ("a Restore of version 1", RESTORE, &[(2, 1)]),
    ("a Restore of version 3", RESTORE, &[(2, 3)]),
    ("a Restore of no ranges", RESTORE, &[(21, 0)]),
    ("a Restore of names of site 0", RESTORE, &[(23, 0)]),
];

fn change(bytes: &mut [u8], changes: &[(usize, u8)]) -> bool {
    for (index, byte) in changes {
        let Some(place) = bytes.get_mut(*index) else {
            return false;
        };
        *place = *byte;
    }
    true
}

fn is_refused(alloc: Global, message: &[u8], changes: &[(usize, u8)]) -> bool {
    match vec_of(alloc, message) {
        Ok(mut bytes) => change(&mut bytes, changes) && are_malformed(alloc, &bytes),
        Err(_) => false,
    }
}

fn all_are_refused(alloc: Global, rows: &[Changed]) -> Result<(), Fail> {
    for row in rows {
        is(is_refused(alloc, row.1, row.2), row.0)?;
    }
    Ok(())
}

#[test]
fn changed_messages_are_malformed() -> Result<(), Fail> {
    all_are_refused(fallible::Global, CHANGED)?;
    all_are_refused(fallible::Global, CHANGED_NAMES)
}

// Whole messages that spell no operation.
const MALFORMED: &[(&str, &[u8])] = &[
    (
        "a byte after the end",
        b"OT\x01\x01\x00\x01\x00\x01\x00\x00\x00\x01\x00\x00\x00\x00\x00\x00\x00\x01\
            \x00\x00\x00\x00\x00\x00\x00\x00\x00\x00\x10Oberon10.Scn.Fnt\x01\x00\x00\x06Oberon\x00",
    ),
    (
        "ranges that touch",
        b"OT\x01\x02\x00\x01\x00\x02\x00\x00\x00\x01\x00\x00\x00\x00\x00\x00\x00\x02\x00\x02\
            \x00\x01\x00\x00\x00\x00\x00\x00\x00\x01\x00\x01\x00\x00\x00\x01\x00\x00\x00\x01",
    ),
    (
        "ranges that fall",
        b"OT\x01\x02\x00\x01\x00\x02\x00\x00\x00\x01\x00\x00\x00\x00\x00\x00\x00\x02\x00\x02\
            \x00\x01\x00\x00\x00\x02\x00\x00\x00\x01\x00\x01\x00\x00\x00\x00\x00\x00\x00\x01",
    ),
    (
        "sites that fall",
        b"OT\x01\x02\x00\x01\x00\x02\x00\x00\x00\x01\x00\x00\x00\x00\x00\x00\x00\x02\x00\x02\
            \x00\x02\x00\x00\x00\x00\x00\x00\x00\x01\x00\x01\x00\x00\x00\x04\x00\x00\x00\x01",
    ),
    (
        "a Restore of nothing",
        b"OT\x02\x04\x00\x01\x00\x01\x00\x00\x00\x03\x00\x00\x00\x00\x00\x00\x00\x03\x00\x00",
    ),
];

fn all_are_malformed(alloc: Global, rows: &[(&'static str, &'static [u8])]) -> Result<(), Fail> {
    for row in rows {
        is(are_malformed(alloc, row.1), row.0)?;
    }
    Ok(())
}

#[test]
fn other_bytes_are_malformed() -> Result<(), Fail> {
    all_are_malformed(fallible::Global, MALFORMED)
}

// A message of each kind.
const KINDS: &[&[u8]] = &[FIRST, DELETE, RESTORE, CHANGE];

// No front of the message is one.
fn has_no_front(alloc: Global, message: &[u8]) -> bool {
    for len in 0..message.len() {
        if !are_malformed(alloc, &message[..len]) {
            return false;
        }
    }
    true
}

fn have_no_front(alloc: Global, messages: &[&[u8]]) -> bool {
    for message in messages {
        if !has_no_front(alloc, message) {
            return false;
        }
    }
    true
}

#[test]
fn fronts_are_malformed() -> Result<(), Fail> {
    is(have_no_front(fallible::Global, KINDS), "a front")
}

fn is_spelled(op: &Op, alloc: Global, bytes: &[u8]) -> bool {
    let mut message = Vec::new(alloc);
    write(op, &mut message) && message.as_slice() == bytes
}

// Whether the bytes spell the operation that is read, or none, as a message never does.
fn spell_what_is_read(alloc: Global, bytes: &[u8], are_message: bool) -> bool {
    match op_in(alloc, bytes) {
        Ok(op) => is_spelled(&op, alloc, bytes),
        Err(refusal) => refusal == Refusal::Malformed && !are_message,
    }
}

// With this byte, the bytes spell no operation, or the one that is read.
fn byte_counts(bytes: &mut [u8], alloc: Global, index: usize, new: u8) -> bool {
    let Some(place) = bytes.get_mut(index) else {
        return false;
    };
    let old = *place;
    *place = new;
    let counts = spell_what_is_read(alloc, bytes, new == old);
    change(bytes, &[(index, old)]) && counts
}

fn counts(bytes: &mut [u8], alloc: Global, index: usize) -> bool {
    for new in 0..=255 {
        if !byte_counts(bytes, alloc, index, new) {
            return false;
        }
    }
    true
}

fn all_count(bytes: &mut [u8], alloc: Global) -> bool {
    for index in 0..bytes.len() {
        if !counts(bytes, alloc, index) {
            return false;
        }
    }
    true
}

fn each_counts(alloc: Global, message: &[u8]) -> bool {
    match vec_of(alloc, message) {
        Ok(mut bytes) => all_count(&mut bytes, alloc),
        Err(_) => false,
    }
}

fn each_counts_in_all(alloc: Global, messages: &[&[u8]]) -> bool {
    for message in messages {
        if !each_counts(alloc, message) {
            return false;
        }
    }
    true
}

#[test]
fn each_byte_counts() -> Result<(), Fail> {
    is(each_counts_in_all(fallible::Global, KINDS), "a byte")
}

// Makes room for so many bytes more; an allocation that is refused once is tried again.
fn reserve(message: &mut Vec<u8>, len: usize) -> bool {
    message.reserve(len).is_ok() || message.reserve(len).is_ok()
}

fn write_range(message: &mut Vec<u8>, at: u32) -> bool {
    message.extend_from_slice(&[0, 1]).is_ok()
        && message.extend_from_slice(&at.to_be_bytes()).is_ok()
        && message.extend_from_slice(&[0, 0, 0, 1]).is_ok()
}

// Writes so many ranges, each of one name, that don't touch.
fn write_ranges(message: &mut Vec<u8>, count: u16) -> bool {
    for index in 0..u32::from(count) {
        if !write_range(message, 2 * index) {
            return false;
        }
    }
    true
}

// Writes a Delete of so many ranges, each of one name, that don't touch.
fn write_delete(message: &mut Vec<u8>, count: u16) -> bool {
    reserve(message, 10_500)
        && message.extend_from_slice(&DELETE[..20]).is_ok()
        && message.extend_from_slice(&count.to_be_bytes()).is_ok()
        && write_ranges(message, count)
}

// Whether its ranges are those of every other character of site 1, from the first on.
fn is_scattered(set: &NameSet) -> bool {
    let places = (0..).step_by(2);
    set.ranges()
        .iter()
        .zip(places)
        .all(|(range, at)| (range.site().get(), range.at(), range.len()) == (1, at, 1))
}

fn has_1024(op: &Op) -> bool {
    match op.kind() {
        Kind::Delete { names } => names.ranges().len() == 1024 && is_scattered(names),
        _ => false,
    }
}

fn are_read(alloc: Global, message: &[u8]) -> bool {
    match op_in(alloc, message) {
        Ok(op) => has_1024(&op),
        Err(_) => false,
    }
}

fn have_a_bound(message: &mut Vec<u8>, alloc: Global) -> bool {
    if !write_delete(message, 1024) || !are_read(alloc, message) {
        return false;
    }
    message.clear();
    write_delete(message, 1025) && are_malformed(alloc, message)
}

#[test]
fn at_most_1024_ranges() -> Result<(), Fail> {
    let mut message = Vec::new(fallible::Global);
    is(have_a_bound(&mut message, fallible::Global), "1,024 ranges")
}
