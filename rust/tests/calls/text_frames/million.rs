//! What an edit of a long text makes a frame read: where it shows, after the frame and before it.
use super::{frame, is, text};
use char_files::Buffer;
use fallible::{Fail, Global};
use looks::Looks;
use text_frames::Frame;
use texts::{Outbox, Replica};

// 20,000 lines of 49 letters each, with their ends a million characters.
const LINES: u32 = 20_000;

fn long_text(alloc: Global, replica: &mut Replica) -> Result<(), Fail> {
    let mut buffer = Buffer::new(alloc);
    for _ in 0..LINES {
        buffer.push_all(&[b'a'; 49], &Looks::plain())?;
        buffer.push_all(b"\r", &Looks::plain())?;
    }
    let sent = replica.append(&buffer, &mut Outbox::new(alloc));
    is(sent.is_ok(), "a million characters")?;
    is(replica.shown_len() == 1_000_000, "a million characters")
}

// Types a character and tells the frame; it reads so many.
fn reads(
    alloc: Global,
    replica: &mut Replica,
    frame: &mut Frame,
    pos: u64,
    count: u64,
) -> Result<(), Fail> {
    super::types(alloc, replica, pos, b"x")?;
    let changes = replica.changes();
    is(changes.len() == 1, "one change")?;
    frame.update(replica, &changes);
    is(frame.reads() == count, "how many characters are read")
}

// The frame's 24 lines begin at 500,000, with the end of a line before them, and a character comes in among them.
fn follows(alloc: Global, replica: &mut Replica, frame: &mut Frame) -> Result<(), Fail> {
    replica.changes();
    frame.scroll(replica, 10_000);
    is(frame.reads() == 501_201, "from the begin on, and 24 lines")?;
    reads(alloc, replica, frame, 500_100, 1_202)?;
    reads(alloc, replica, frame, 900_000, 0)?;
    reads(alloc, replica, frame, 100, 1_202)?;
    if frame.len() < 1 || frame.width() < 1 {
        return Err("a cell".into());
    }
    is(frame.locate(0, 0) == 500_001, "the same line")
}

fn a_long_text(alloc: Global, replica: &mut Replica) -> Result<(), Fail> {
    long_text(alloc, replica)?;
    let mut frame = frame(alloc, replica, 80, 24)?;
    follows(alloc, replica, &mut frame)
}

#[test]
fn edits_of_a_long_text_read_little() -> Result<(), Fail> {
    a_long_text(fallible::Global, &mut text(fallible::Global)?)
}
