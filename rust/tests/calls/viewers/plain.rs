//! A track as a plain list: the number of the viewer of each row, 0 where there is none.

// The first row of a viewer.
pub(super) fn top(rows: &[u32], viewer: u32) -> Option<usize> {
    for row in 0..rows.len() {
        if rows[row] == viewer {
            return Some(row);
        }
    }
    None
}

// How many rows it has.
pub(super) fn height(rows: &[u32], viewer: u32) -> usize {
    let mut height: usize = 0;
    for row in rows {
        if *row == viewer {
            height = height.saturating_add(1);
        }
    }
    height
}

// Gives the rows from one up to another to a viewer.
fn give(rows: &mut [u32], from: usize, to: usize, viewer: u32) {
    for row in 0..rows.len() {
        if from <= row && row < to {
            rows[row] = viewer;
        }
    }
}

// The viewer that has most rows, the first of equals.
fn tallest(rows: &[u32]) -> Option<u32> {
    let mut best = None;
    let mut most: usize = 0;
    for row in rows {
        if most < height(rows, *row) {
            best = Some(*row);
            most = height(rows, *row);
        }
    }
    best
}

fn is_blank(rows: &[u32]) -> bool {
    height(rows, 0) == rows.len()
}

// The viewer that is to be divided, and the row at which that is wished.
fn wish(rows: &[u32], row: Option<usize>) -> Option<(u32, usize)> {
    if let Some(row) = row {
        return Some((*rows.get(row)?, row));
    }
    let viewer = tallest(rows)?;
    let half = height(rows, viewer) / 2;
    Some((viewer, top(rows, viewer)?.saturating_add(half)))
}

// Opens a viewer; whether there is room.
pub(super) fn open(rows: &mut [u32], viewer: u32, row: Option<usize>) -> bool {
    if is_blank(rows) {
        give(rows, 0, rows.len(), viewer);
        return true;
    }
    let Some((divided, wished)) = wish(rows, row) else {
        return false;
    };
    let Some(first) = top(rows, divided) else {
        return false;
    };
    if height(rows, divided) < 4 {
        return false;
    }
    let end = first.saturating_add(height(rows, divided));
    let cut = wished
        .max(first.saturating_add(2))
        .min(end.saturating_sub(2));
    give(rows, cut, end, viewer);
    true
}

// The viewer that takes these rows as theirs closes: the one above, or else below.
fn heir(rows: &[u32], first: usize, end: usize) -> u32 {
    let row = first.checked_sub(1).unwrap_or(end);
    rows.get(row).copied().unwrap_or(0)
}

// Closes a viewer; whether it is there.
pub(super) fn close(rows: &mut [u32], viewer: u32) -> bool {
    let Some(first) = top(rows, viewer) else {
        return false;
    };
    let end = first.saturating_add(height(rows, viewer));
    let heir = heir(rows, first, end);
    give(rows, first, end, heir);
    true
}

// Moves the top of a viewer that is there; whether it may be.
pub(super) fn move_top(rows: &mut [u32], viewer: u32, row: usize) -> bool {
    let Some(first) = top(rows, viewer) else {
        return false;
    };
    let Some(above) = first.checked_sub(1) else {
        return false;
    };
    let above = rows.get(above).copied().unwrap_or(0);
    let end = first.saturating_add(height(rows, viewer));
    let beg = top(rows, above).unwrap_or(0);
    if row < beg.saturating_add(2) || end < row.saturating_add(2) {
        return false;
    }
    give(rows, beg, row, above);
    give(rows, row, end, viewer);
    true
}
