//! What frames draw, as worked out by hand.
use super::{frame, is, shows, text, types};
use char_files::Anchor;
use fallible::{Fail, Global};
use text_frames::Frame;
use texts::Replica;

// Cells of the frame, by column and row, and their positions.
fn has_places(frame: &Frame, cells: &[(usize, usize, u64)]) -> Result<(), Fail> {
    for (col, row, pos) in cells {
        if *col >= frame.width() || *row >= frame.len() {
            return Err("a cell of the frame".into());
        }
        is(frame.locate(*col, *row) == *pos, "a cell's position")?;
    }
    Ok(())
}

// Signs, an empty line, a cut one, and a blank row past the last line.
fn draws(replica: &Replica, frame: &mut Frame) -> Result<(), Fail> {
    is(frame.anchor() == Anchor::Root, "the root")?;
    is(frame.reads() == 15, "each character once")?;
    shows(frame, &[b"a b??", b"     ", b"abcde", b"     "])?;
    has_places(
        frame,
        &[(4, 0, 4), (0, 1, 6), (3, 1, 6), (4, 2, 11), (0, 3, 15)],
    )?;
    frame.resize(replica, 1);
    is(frame.reads() == 6, "the first line")?;
    shows(frame, &[b"a b??"])
}

fn narrow_rows(alloc: Global, replica: &mut Replica) -> Result<(), Fail> {
    types(alloc, replica, 0, b"a\tb\x01\x7F\r\rabcdefgh")?;
    let mut frame = frame(alloc, replica, 5, 4)?;
    draws(replica, &mut frame)
}

#[test]
fn narrow_rows_are_drawn() -> Result<(), Fail> {
    narrow_rows(fallible::Global, &mut text(fallible::Global)?)
}

// Lines by their numbers, and one past the last.
fn scrolls(replica: &Replica, frame: &mut Frame) -> Result<(), Fail> {
    frame.scroll(replica, 1);
    is(frame.reads() == 7, "two, the one before, and four")?;
    shows(frame, &[b"bc ", b"d  "])?;
    frame.scroll(replica, 9);
    is(frame.reads() == 8, "six, the one before, and one")?;
    shows(frame, &[b"d  ", b"   "])?;
    has_places(frame, &[(0, 0, 5), (1, 0, 6), (1, 1, 6)])?;
    frame.scroll(replica, 0);
    is(frame.anchor() == Anchor::Root, "the root")?;
    shows(frame, &[b"a  ", b"bc "])
}

fn lines_by_number(alloc: Global, replica: &mut Replica) -> Result<(), Fail> {
    types(alloc, replica, 0, b"a\rbc\rd")?;
    let mut frame = frame(alloc, replica, 3, 2)?;
    scrolls(replica, &mut frame)
}

#[test]
fn frames_scroll() -> Result<(), Fail> {
    lines_by_number(fallible::Global, &mut text(fallible::Global)?)
}
