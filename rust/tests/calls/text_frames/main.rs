//! What no clause says: that calls succeed, and that rows are as they were worked out by hand.
use calls::is;
use char_files::{Buffer, SiteNo, TextNo};
use fallible::{Fail, Global};
use looks::{Looks, Refusal};
use text_frames::Frame;
use texts::{Outbox, Replica};

mod changed;
mod drawn;
mod kept;
mod million;
mod slow;

// A site's copy of an empty text.
fn text_of(alloc: Global, site: u16) -> Result<Replica, Fail> {
    let text = TextNo::new(1).ok_or("a text")?;
    let site = SiteNo::new(site).ok_or("a site")?;
    Ok(Replica::new(alloc, text, site)?)
}

fn text(alloc: Global) -> Result<Replica, Fail> {
    text_of(alloc, 1)
}

// Types bytes of the default looks at a position, and sends the message.
fn sends(
    alloc: Global,
    replica: &mut Replica,
    pos: u64,
    bytes: &[u8],
    outbox: &mut Outbox,
) -> Result<(), Fail> {
    let mut letters = Buffer::new(alloc);
    letters.push_all(bytes, &Looks::plain())?;
    if replica.shown_len() < pos {
        return Err("a position of the text".into());
    }
    is(
        replica.insert(pos, &letters, outbox).is_ok(),
        "an insertion",
    )
}

fn types(alloc: Global, replica: &mut Replica, pos: u64, bytes: &[u8]) -> Result<(), Fail> {
    sends(alloc, replica, pos, bytes, &mut Outbox::new(alloc))
}

// A frame of 1 to 200 columns and 1 to 99 rows.
fn frame(alloc: Global, replica: &Replica, width: usize, rows: usize) -> Result<Frame, Refusal> {
    Frame::fresh(alloc, replica, width.max(1).min(200), rows.max(1).min(99))
}

// Each row of the frame, its cells up to the width.
fn shows(frame: &Frame, rows: &[&[u8]]) -> Result<(), Fail> {
    is(frame.len() == rows.len(), "how many rows")?;
    let mut cells = [0; 200];
    let width = frame.width();
    if width > 200 {
        return Err("its width".into());
    }
    for (i, row) in rows.iter().enumerate() {
        if i >= frame.len() {
            return Err("a row".into());
        }
        frame.row(i, &mut cells[..width]);
        is(&cells[..width] == *row, "a row's cells")?;
    }
    Ok(())
}
