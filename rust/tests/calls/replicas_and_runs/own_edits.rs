//! A replica's own edits, by its calls.
use super::is;
use super::replicas::{TAKEN, appends, letters, replica_of, takes};
use char_files::Buffer;
use fallible::{Fail, Global};
use looks::{Colour, Looks, Refusal, Sel};
use texts::{EditRefusal, Outbox, Replica, Took};

// Site 1 types `Oberon`, and goes on after the first character of site 2.
const OBERON: &str =
    "4f5401010001000100000001000000000000000100000000000000000000104f6265726f6e31302e53636e2e466e74010000064f6265726f6e";

const BEHIND_SITE_2: &str =
    "4f5401010001000100000002000000000000000300020000000000000006104f6265726f6e31302e53636e2e466e740100000157";

fn is_as_it_begins(replica: &Replica, outbox: &Outbox) -> Result<(), Fail> {
    let (text, site) = (replica.text().get(), replica.site().get());
    is(text == 1 && site == 2, "its text and site")?;
    is(replica.shown_len() == 0, "no characters")?;
    is(outbox.is_empty() && outbox.len() == 0, "no messages")
}

// A message that names an own character bars edits until it is forgotten.
fn forgets(alloc: Global, replica: &mut Replica, outbox: &mut Outbox) -> Result<(), Fail> {
    takes(alloc, replica, BEHIND_SITE_2, Ok(Took::Waits))?;
    let behind = Err(EditRefusal::Whole(Refusal::Behind));
    appends(alloc, replica, b"a", outbox, behind)?;
    appends(alloc, replica, b"", outbox, Ok(0))?;
    is(replica.waiting() == 1, "one waits")?;
    is(replica.forget_waiting() == 1, "one is forgotten")?;
    is(replica.waiting() == 0, "none waits")?;
    is(replica.forget_waiting() == 0, "none is left to forget")
}

// Takes one character out, which is the one that is recalled, and shows it again.
fn deletes_and_restores(replica: &mut Replica, outbox: &mut Outbox) -> Result<(), Fail> {
    is(replica.delete(0, 0, outbox) == Ok(0), "nothing")?;
    is(replica.recall()?.is_empty(), "nothing was deleted yet")?;
    is(replica.restore(outbox) == Ok(0), "nothing to restore")?;
    if replica.shown_len() < 2 {
        return Err("two characters".into());
    }
    is(replica.delete(1, 2, outbox) == Ok(1), "a Delete")?;
    is(replica.recall()?.len() == 1, "what was deleted")?;
    is(replica.shown_len() == 2, "one is hidden")?;
    is(replica.restore(outbox) == Ok(1), "a Restore")?;
    is(replica.restore(outbox) == Ok(0), "all is shown")?;
    is(replica.shown_len() == 3, "it is shown")
}

// Gives the first character a colour, and leaves its font and its offset.
fn colours(replica: &mut Replica, outbox: &mut Outbox) -> Result<(), Fail> {
    let colour = Colour::new(5).ok_or("a colour")?;
    let sel = Sel::new(2).ok_or("the colour alone")?;
    let looks = Looks {
        font: Looks::plain().font,
        colour,
        offset: 7,
    };
    if replica.shown_len() < 1 {
        return Err("a character".into());
    }
    let answer = replica.change_looks(0, 1, sel, &looks, outbox);
    is(answer == Ok(1), "a ChangeLooks")?;
    if replica.shown_len() < 1 {
        return Err("a character".into());
    }
    let (byte, now) = replica.attributes(0);
    is(byte == b'a' && now.colour == colour, "its colour")?;
    is(now.offset == 0, "its offset")?;
    is(replica.save(0, 1)?.len() == 1, "what is saved")
}

// What was forgotten may come again after them.
fn edits(alloc: Global, replica: &mut Replica, outbox: &mut Outbox) -> Result<(), Fail> {
    is_as_it_begins(replica, outbox)?;
    forgets(alloc, replica, outbox)?;
    appends(alloc, replica, b"aaa", outbox, Ok(1))?;
    deletes_and_restores(replica, outbox)?;
    colours(replica, outbox)?;
    is(outbox.len() == 4, "four messages")?;
    takes(alloc, replica, OBERON, TAKEN)?;
    takes(alloc, replica, BEHIND_SITE_2, TAKEN)?;
    is(replica.shown_len() == 10, "all of them")
}

#[test]
fn edits_its_own_text() -> Result<(), Fail> {
    let mut replica = replica_of(fallible::Global, 1, 2)?;
    edits(fallible::Global, &mut replica, &mut Outbox::new(fallible::Global))
}

// Fills a site's file, 4,096 bytes at a time; one byte more is refused.
fn fills(
    alloc: Global,
    replica: &mut Replica,
    many: &Buffer,
    outbox: &mut Outbox,
) -> Result<(), Fail> {
    for _ in 0..4096 {
        is(replica.append(many, outbox) == Ok(1), "4,096 bytes")?;
    }
    let spent = Err(EditRefusal::Whole(Refusal::FileSpent));
    appends(alloc, replica, b"a", outbox, spent)?;
    is(replica.shown_len() == 1 << 24, "all of them")
}

fn spends_its_file(alloc: Global, replica: &mut Replica, outbox: &mut Outbox) -> Result<(), Fail> {
    let many = letters(alloc, &[b'a'; 4096])?;
    fills(alloc, replica, &many, outbox)
}

#[test]
fn a_file_is_spent() -> Result<(), Fail> {
    let mut replica = replica_of(fallible::Global, 1, 1)?;
    spends_its_file(fallible::Global, &mut replica, &mut Outbox::new(fallible::Global))
}
