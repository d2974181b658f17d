use super::files::STORED;
use super::is;
use char_files::{Buffer, SiteNo, Source, TextNo};
use fallible::{Fail, Global, Vec};
use looks::Looks;
use reader_scanner::{Class, Reader, Scanner};
use text_file::store;
use texts::{Outbox, Replica};

// Types a character before all that is shown. Where memory is refused it answers false, and nothing changes.
fn type_before(
    replica: &mut Replica,
    outbox: &mut Outbox,
    alloc: Global,
    byte: u8,
    looks: Looks,
) -> bool {
    let mut buffer = Buffer::new(alloc);
    match buffer.push(byte, looks) {
        Ok(()) => replica.insert(0, &buffer, outbox) == Ok(1),
        Err(_) => false,
    }
}

// The same; where memory is refused, once more.
fn types(
    replica: &mut Replica,
    outbox: &mut Outbox,
    alloc: Global,
    byte: u8,
    looks: &Looks,
) -> Result<(), Fail> {
    let done = type_before(replica, outbox, alloc, byte, looks.copy())
        || type_before(replica, outbox, alloc, byte, looks.copy());
    is(done, "typed")
}

fn is_stored(replica: &Replica, alloc: Global) -> Result<(), Fail> {
    let mut file = Vec::new(alloc);
    let stored = store(replica, &mut file);
    is(
        stored.is_ok() && file.as_slice() == STORED.as_slice(),
        "its file",
    )
}

fn is_read(replica: &Replica, raised: &Looks) -> Result<(), Fail> {
    is(Source::len(replica) == 15, "fifteen characters")?;
    let mut reader = Reader::open(replica, 0);
    is(reader.read() == Some((b'-', raised.copy())), "the first")?;
    is(reader.read() == Some((b'5', Looks::plain())), "the second")?;
    let token = Scanner::open(replica, 0).scan();
    is(
        (token.class(), token.beg, token.end) == (Class::Int, 0, 2),
        "a number",
    )
}

// The site types a text from its last character to its first, and then `-5 ` before it, the `-` raised.
fn is_typed(replica: &mut Replica, outbox: &mut Outbox, alloc: Global) -> Result<(), Fail> {
    is(Reader::open(replica, 0).read().is_none(), "no character")?;
    for byte in b"s erotS.tidE" {
        types(replica, outbox, alloc, *byte, &Looks::plain())?;
    }
    is_stored(replica, alloc)?;
    for byte in b" 5" {
        types(replica, outbox, alloc, *byte, &Looks::plain())?;
    }
    let mut raised = Looks::plain();
    raised.offset = 2;
    types(replica, outbox, alloc, b'-', &raised)?;
    is_read(replica, &raised)
}

fn with_an_outbox(replica: &mut Replica, alloc: Global) -> Result<(), Fail> {
    let mut outbox = Outbox::new(alloc);
    is_typed(replica, &mut outbox, alloc)
}

#[test]
fn a_replica_is_a_source() -> Result<(), Fail> {
    let text = TextNo::new(1).ok_or("1 is a text")?;
    let site = SiteNo::new(2).ok_or("2 is a site")?;
    let mut replica = Replica::new(fallible::Global, text, site)?;
    with_an_outbox(&mut replica, fallible::Global)
}
