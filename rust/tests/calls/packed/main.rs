//! Worked lists of operations, which are read from their packed bytes and packed again.

mod files;
mod lists;
mod worked_chunk;

use calls::is;
use char_files::TextNo;
use fallible::{Fail, Global, Vec};
use lists::{LISTS, List};
use operations::{Op, encode};
use packed::History;

// The operation's message is these bytes.
fn is_of(op: &Op, alloc: Global, message: &[u8]) -> Result<(), Fail> {
    let mut spelled = Vec::new(alloc);
    encode(op, &mut spelled)?;
    is(spelled.as_slice() == message, "another operation is read")
}

// Reads the list's operations by one history, and packs them by another.
fn both_ways(
    read: &mut History,
    written: &mut History,
    out: &mut Vec<u8>,
    text: TextNo,
    list: &List,
) -> Result<(), Fail> {
    let alloc = *out.allocator();
    let mut rest = list.packed;
    for message in list.messages {
        let (op, after) = read.next(alloc, text, rest)?;
        is_of(&op, alloc, message)?;
        written.put(&op, out)?;
        rest = after;
    }
    is(rest.is_empty(), "bytes are left")
}

// The list's operations, once they are read, are packed as the list says.
fn is_packed_again(alloc: Global, text: TextNo, list: &List) -> Result<(), Fail> {
    let mut read = History::new(alloc);
    let mut written = History::new(alloc);
    let mut out = Vec::new(alloc);
    both_ways(&mut read, &mut written, &mut out, text, list)?;
    is(out.as_slice() == list.packed, "it is packed otherwise")
}

#[test]
fn lists_are_read_and_packed() -> Result<(), Fail> {
    for list in LISTS {
        let text = TextNo::new(list.text).ok_or("no text has this number")?;
        is_packed_again(fallible::Global, text, list)?;
    }
    Ok(())
}
