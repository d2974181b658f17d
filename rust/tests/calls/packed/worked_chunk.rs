//! A chunk worked out by hand. Site 1, which has a file of five characters, types an a after them, the byte 15, which is a
//! code in a chunk, and takes that back; in between site 2 deletes the a.
use super::{is, is_of};
use char_files::SiteNo;
use chunks::{Chunk, ChunkWriter, read_chunk};
use fallible::{Fail, Global};
use operations::Op;
use packed::History;

const CHUNK: &[u8] = b"OTC1\x00\x01\x0f\x01\x03\x09\x05\x05\x01\x04a\x0e\x0f\x0f\x02\x01\x0b\x00\
    \x05\x01\x05\x08\x01\x01\x01\x08";

// An operation's message, and how long its site's file is before it.
struct Row {
    message: &'static [u8],
    len: u32,
}

const ROWS: &[Row] = &[
    Row {
        message: b"OT\x01\x01\x00\x01\x00\x01\x00\x00\x00\x03\x00\x00\x00\x00\x00\x00\x00\x09\x00\x01\
            \x00\x00\x00\x04\x00\x00\x00\x05\x10Oberon10.Scn.Fnt\x01\x00\x00\x01a",
        len: 5,
    },
    Row {
        message: b"OT\x01\x01\x00\x01\x00\x01\x00\x00\x00\x04\x00\x00\x00\x00\x00\x00\x00\x0a\x00\x01\
            \x00\x00\x00\x05\x00\x00\x00\x06\x10Oberon10.Scn.Fnt\x01\x00\x00\x01\x0f",
        len: 6,
    },
    Row {
        message: b"OT\x01\x02\x00\x01\x00\x02\x00\x00\x00\x01\x00\x00\x00\x00\x00\x00\x00\x0b\x00\x01\
            \x00\x01\x00\x00\x00\x05\x00\x00\x00\x01",
        len: 0,
    },
    Row {
        message: b"OT\x01\x02\x00\x01\x00\x01\x00\x00\x00\x05\x00\x00\x00\x00\x00\x00\x00\x0c\x00\x01\
            \x00\x01\x00\x00\x00\x06\x00\x00\x00\x01",
        len: 7,
    },
];

// The operation can come next, and there is room for it.
fn is_added(writer: &mut ChunkWriter, op: &Op, len: u32) -> Result<(), Fail> {
    if !writer.can_come(op, len) {
        return Err("an operation can't come next".into());
    }
    is(writer.add(op, len)?, "there is no room")
}

// The chunk's operations are those of the rows, and are added.
fn are_added(writer: &mut ChunkWriter, alloc: Global, chunk: &Chunk) -> Result<(), Fail> {
    is(
        chunk.operations.len() == ROWS.len(),
        "more are read, or fewer",
    )?;
    for (op, row) in chunk.operations.iter().zip(ROWS) {
        is_of(op, alloc, row.message)?;
        is_added(writer, op, row.len)?;
    }
    Ok(())
}

// Written again it is the same chunk.
fn is_written_again(alloc: Global, chunk: &Chunk) -> Result<(), Fail> {
    let mut writer = ChunkWriter::new(alloc, chunk.text)?;
    are_added(&mut writer, alloc, chunk)?;
    is(writer.bytes() == CHUNK, "another chunk is written")
}

#[test]
fn a_chunk_is_read_and_written() -> Result<(), Fail> {
    let chunk = read_chunk(fallible::Global, CHUNK)?;
    is_written_again(fallible::Global, &chunk)
}

#[test]
fn a_site_begins_where_the_chunk_says() -> Result<(), Fail> {
    let site = SiteNo::new(1).ok_or("no site has this number")?;
    let mut history = History::of_chunk(fallible::Global);
    history.begin(site, 2, 8, 5)?;
    is(
        history.has_begun(site) && history.len(site) == 5,
        "it begins elsewhere",
    )
}
