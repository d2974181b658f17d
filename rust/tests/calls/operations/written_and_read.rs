use super::fixtures::{has_these, op_with, vec_of};
use super::is;
use super::messages::{MESSAGES, Message};
use fallible::{Fail, Global, Vec};
use looks::Refusal;
use operations::{Op, decode, encode};

// The operation's message is these bytes. Where the allocation of `encode` is refused, the vector has to be as it
// was before.
fn writes(op: &Op, message: &mut Vec<u8>, case: &Message) -> Result<(), Fail> {
    if let Err(refusal) = encode(op, message) {
        is(matches!(refusal, Refusal::OutOfMemory { .. }), case.what)?;
        is(message.as_slice() == b"before".as_slice(), case.what)?;
        encode(op, message)?;
    }
    let spelling = message.as_slice().strip_prefix(b"before");
    is(spelling == Some(case.bytes), case.what)
}

fn is_written(op: &Op, alloc: Global, case: &Message) -> Result<(), Fail> {
    let mut message = vec_of(alloc, b"before")?;
    writes(op, &mut message, case)
}

fn read_of(alloc: Global, bytes: &[u8]) -> Result<Op, Refusal> {
    match decode(alloc, bytes) {
        Err(Refusal::OutOfMemory { .. }) => decode(alloc, bytes),
        answer => answer,
    }
}

// The bytes are read as the operation, which has these fields.
fn is_read(op: &Op, alloc: Global, case: &Message) -> Result<(), Fail> {
    let read = read_of(alloc, case.bytes)?;
    is(read.is_same(op) && has_these(&read, case.fields), case.what)
}

// Changes a bit of this byte; done twice, the bytes are as before.
fn flip(bytes: &mut [u8], index: usize) -> Option<()> {
    *bytes.get_mut(index)? ^= 1;
    Some(())
}

// The bytes are the operation's message, and aren't with one of them changed, nor with one more. An allocation that is
// refused once is tried again.
fn are_told_apart(op: &Op, bytes: &mut Vec<u8>, what: &'static str) -> Result<(), Fail> {
    is(op.is_spelled(bytes), what)?;
    for index in 0..bytes.len() {
        flip(bytes, index).ok_or(what)?;
        is(!op.is_spelled(bytes), what)?;
        flip(bytes, index).ok_or(what)?;
    }
    if bytes.push(0).is_err() {
        bytes.push(0)?;
    }
    is(!op.is_spelled(bytes), what)
}

fn is_told(op: &Op, alloc: Global, case: &Message) -> Result<(), Fail> {
    let mut bytes = vec_of(alloc, case.bytes)?;
    are_told_apart(op, &mut bytes, case.what)
}

fn goes_both_ways(op: &Op, alloc: Global, case: &Message) -> Result<(), Fail> {
    is_written(op, alloc, case)?;
    is_told(op, alloc, case)?;
    is_read(op, alloc, case)
}

fn is_message(alloc: Global, case: &Message) -> Result<(), Fail> {
    let op = op_with(alloc, case.fields).ok_or(case.what)?;
    goes_both_ways(&op, alloc, case)
}

#[test]
fn messages_are_written_and_read() -> Result<(), Fail> {
    for case in MESSAGES {
        is_message(fallible::Global, case)?;
    }
    Ok(())
}
