//! Worked rows: a frame follows its text's changes.
use super::{frame, is, sends, shows, text, text_of, types};
use fallible::{Fail, Global};
use list_changes::{Change, ChangeKind};
use text_frames::Frame;
use texts::{Outbox, Replica};

// Types a byte, and tells the frame.
fn types_one(
    alloc: Global,
    replica: &mut Replica,
    frame: &mut Frame,
    pos: u64,
    byte: u8,
) -> Result<(), Fail> {
    types(alloc, replica, pos, &[byte])?;
    let change = Change {
        kind: ChangeKind::Insert,
        beg: pos,
        end: pos.saturating_add(1),
    };
    frame.update(replica, &[change]);
    Ok(())
}

fn follows(alloc: Global, replica: &mut Replica, frame: &mut Frame) -> Result<(), Fail> {
    is(frame.reads() >= 2, "that it read the text")?;
    let before = frame.all_reads();
    is(before == frame.reads(), "all that it read")?;
    shows(frame, &[b"a         ", b"b         "])?;
    types_one(alloc, replica, frame, 4, b'z')?;
    is(frame.reads() == 0, "a change after the rows")?;
    shows(frame, &[b"a         ", b"b         "])?;
    types_one(alloc, replica, frame, 3, b'y')?;
    is(frame.reads() == 5, "a change in the last row")?;
    is(
        frame.all_reads().checked_sub(before) == Some(5),
        "all reads",
    )?;
    shows(frame, &[b"a         ", b"by        "])
}

fn changes(alloc: Global, replica: &mut Replica) -> Result<(), Fail> {
    types(alloc, replica, 0, b"a\rb\rc\rd")?;
    let mut frame = frame(alloc, replica, 10, 2)?;
    follows(alloc, replica, &mut frame)
}

#[test]
fn a_frame_follows_changes() -> Result<(), Fail> {
    changes(fallible::Global, &mut text(fallible::Global)?)
}

fn hears(replica: &mut Replica, outbox: &Outbox, index: usize) -> Result<(), Fail> {
    if outbox.len() <= index {
        return Err("a message".into());
    }
    is(replica.take(outbox.message(index)).is_ok(), "a message")
}

// The frame follows what its text tells, which are so many changes.
fn follow(frame: &mut Frame, replica: &mut Replica, count: usize) -> Result<(), Fail> {
    let changes = replica.changes();
    is(changes.len() == count, "how many changes")?;
    frame.update(replica, &changes);
    Ok(())
}

fn cuts(replica: &mut Replica, outbox: &mut Outbox) -> Result<(), Fail> {
    if replica.shown_len() < 3 {
        return Err("three characters".into());
    }
    is(replica.delete(1, 3, outbox).is_ok(), "a deletion")
}

// Site 1 cuts `bc` out, between which site 2 has typed `X`.
fn follows_a_cut(
    alloc: Global,
    one: &mut Replica,
    two: &mut Replica,
    frame: &mut Frame,
    outbox: &mut Outbox,
) -> Result<(), Fail> {
    sends(alloc, one, 0, b"abcd", outbox)?;
    hears(two, outbox, 0)?;
    follow(frame, two, 1)?;
    shows(frame, &[b"abcd      "])?;
    sends(alloc, two, 2, b"X", outbox)?;
    follow(frame, two, 1)?;
    shows(frame, &[b"abXcd     "])?;
    cuts(one, outbox)?;
    hears(two, outbox, 2)?;
    follow(frame, two, 2)?;
    shows(frame, &[b"aXd       "])
}

fn with_frame(alloc: Global, one: &mut Replica, two: &mut Replica) -> Result<(), Fail> {
    let mut frame = frame(alloc, two, 10, 1)?;
    follows_a_cut(alloc, one, two, &mut frame, &mut Outbox::new(alloc))
}

fn two_sites(alloc: Global, one: &mut Replica) -> Result<(), Fail> {
    with_frame(alloc, one, &mut text_of(alloc, 2)?)
}

#[test]
fn a_frame_follows_a_cut() -> Result<(), Fail> {
    two_sites(fallible::Global, &mut text(fallible::Global)?)
}
