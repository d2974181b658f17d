//! A text of more than one chunk.
use calls::is;
use char_files::{Buffer, SiteNo, TextNo};
use fallible::{Fail, Global, Vec};
use looks::Looks;
use text_chunks::{pack, unpack};
use texts::{Outbox, Replica};

// As many letters as three operations have, and one more.
const LETTERS: usize = 3 * 4096 + 1;

// The letters are typed twice, one stretch before the other: eight operations, of which a chunk has room for those of
// the first stretch and no more than two of three long ones.
fn write(replica: &mut Replica, outbox: &mut Outbox, letters: &Buffer) -> Result<(), Fail> {
    let first = replica.insert(0, letters, outbox);
    let second = replica.insert(0, letters, outbox);
    is(
        first == Ok(4) && second == Ok(4),
        "the letters are typed otherwise",
    )
}

// All chunks, one after the other.
fn unpack_all(replica: &mut Replica, alloc: Global, chunks: &[Vec<u8>]) -> Result<u64, Fail> {
    let mut taken = 0_u64;
    for chunk in chunks {
        match unpack(alloc, replica, chunk) {
            Ok(done) => taken = taken.saturating_add(done.taken),
            Err(_) => return Err("a chunk is refused".into()),
        }
    }
    Ok(taken)
}

fn shows_the_same(replica: &Replica, other: &Replica) -> Result<(), Fail> {
    for (char, copied) in replica.shown().zip(other.shown()) {
        is(
            char.name == copied.name && char.byte == copied.byte,
            "another text is shown",
        )?;
    }
    is(
        replica.shown_len() == other.shown_len(),
        "more is shown, or less",
    )
}

// Another copy shows the same once it has all chunks.
fn is_copied(replica: &Replica, alloc: Global, other: &mut Replica) -> Result<(), Fail> {
    let chunks = pack(alloc, replica, &[])?;
    is(chunks.len() == 2, "more chunks are packed, or fewer")?;
    is(
        unpack_all(other, alloc, &chunks)? == 8,
        "more operations came, or fewer",
    )?;
    shows_the_same(replica, other)
}

fn at_another_site(replica: &Replica, alloc: Global) -> Result<(), Fail> {
    let site = SiteNo::new(2).ok_or("no site has this number")?;
    let mut other = Replica::new(alloc, replica.text(), site)?;
    is_copied(replica, alloc, &mut other)
}

fn write_and_copy(
    replica: &mut Replica,
    alloc: Global,
    outbox: &mut Outbox,
    letters: &Buffer,
) -> Result<(), Fail> {
    write(replica, outbox, letters)?;
    at_another_site(replica, alloc)
}

#[test]
fn a_long_text() -> Result<(), Fail> {
    let alloc = fallible::Global;
    let text = TextNo::new(1).ok_or("no text has this number")?;
    let site = SiteNo::new(1).ok_or("no site has this number")?;
    let mut letters = Buffer::new(alloc);
    letters.push_all(&[b'a'; LETTERS], &Looks::plain())?;
    let mut outbox = Outbox::new(alloc);
    let mut replica = Replica::new(alloc, text, site)?;
    write_and_copy(&mut replica, alloc, &mut outbox, &letters)
}
