//! Rows as a plain slow program draws them, from all that is shown.
use super::is;
use fallible::{Fail, Global, Vec};
use text_frames::Frame;
use texts::Replica;

// All bytes that are shown, and where each line begins and ends.
pub(super) struct Slow {
    bytes: Vec<u8>,
    lines: Vec<(usize, usize)>,
}

impl Slow {
    pub(super) fn new(alloc: Global) -> Slow {
        Slow {
            bytes: Vec::new(alloc),
            lines: Vec::new(alloc),
        }
    }

    pub(super) fn read(&mut self, replica: &Replica) -> Result<(), Fail> {
        self.bytes.clear();
        for char in replica.shown() {
            self.bytes.push(char.byte)?;
        }
        split(&self.bytes, &mut self.lines)
    }
}

fn split(bytes: &[u8], lines: &mut Vec<(usize, usize)>) -> Result<(), Fail> {
    lines.clear();
    let mut beg: usize = 0;
    for (pos, byte) in bytes.iter().enumerate() {
        if *byte == 0x0D {
            lines.push((beg, pos))?;
            beg = pos.saturating_add(1);
        }
    }
    lines.push((beg, bytes.len()))?;
    Ok(())
}

// The number of the line on which a position stands: so many end before it.
fn number_at(lines: &[(usize, usize)], place: u64) -> usize {
    lines.iter().filter(|line| (line.1 as u64) < place).count()
}

fn sign(byte: u8) -> u8 {
    match byte {
        9 => 32,
        32..=126 => byte,
        _ => 63,
    }
}

// The sign in a column of a line, or the blank after its end.
fn cell(bytes: &[u8], line: (usize, usize), col: usize) -> u8 {
    let pos = line.0.saturating_add(col);
    match bytes.get(pos) {
        Some(byte) if pos < line.1 => sign(*byte),
        _ => 32,
    }
}

// The row shows this line, and its first and last cells have their positions.
fn has_row(frame: &Frame, i: usize, bytes: &[u8], line: (usize, usize)) -> Result<(), Fail> {
    let width = frame.width();
    if i >= frame.len() || width > 200 || width < 1 {
        return Err("a row".into());
    }
    let mut cells = [0; 200];
    frame.row(i, &mut cells[..width]);
    for (col, shown) in cells[..width].iter().enumerate() {
        is(*shown == cell(bytes, line, col), "a cell")?;
    }
    is(frame.locate(0, i) == line.0 as u64, "the first cell")?;
    let last = line.0.saturating_add(width.saturating_sub(1)).min(line.1);
    is(frame.locate(width - 1, i) == last as u64, "the last cell")
}

// The frame's rows are those of the text from the line of its character on. Below the last line they are blank, and have
// its end's position.
pub(super) fn agrees(frame: &Frame, replica: &Replica, slow: &Slow) -> Result<(), Fail> {
    let place = replica.position(frame.anchor()).ok_or("its character")?;
    let first = number_at(&slow.lines, place);
    let below = (slow.bytes.len(), slow.bytes.len());
    for i in 0..frame.len() {
        let line = slow.lines.get(first.saturating_add(i)).unwrap_or(&below);
        has_row(frame, i, &slow.bytes, *line)?;
    }
    Ok(())
}
