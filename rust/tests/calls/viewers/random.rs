//! Many random opens, closes and moves on screens of every height, beside plain lists of rows.
use super::{is, move_top, open, plain};
use fallible::{Fail, Global, Vec};
use looks::Refusal;
use viewers::{Area, MAX_HEIGHT, MAX_WIDTH, MIN_HEIGHT, MIN_WIDTH, Screen, Track};

// So many on each of 93 heights.
const CHANGES: u32 = 108;

// Numbers that are the same in each run: a linear congruential generator.
struct Dice {
    state: u64,
}

impl Dice {
    // A number below this one; 0 below 0.
    fn below(&mut self, end: usize) -> usize {
        self.state = self
            .state
            .wrapping_mul(6_364_136_223_846_793_005)
            .wrapping_add(1_442_695_040_888_963_407);
        let number = (self.state >> 33) as usize;
        number.checked_rem(end).unwrap_or(0)
    }

    // A number from 1 up to the next one, which no viewer has yet.
    fn viewer(&mut self, next: u32) -> u32 {
        let number = u32::try_from(self.below(next as usize)).unwrap_or(0);
        number.saturating_add(1)
    }

    // A row of the screen, or none that is named.
    fn row(&mut self, height: usize) -> Option<usize> {
        if self.below(5) == 0 {
            None
        } else {
            Some(self.below(height))
        }
    }
}

// Both tracks row by row, and the number of the next viewer.
struct Plain {
    user: Vec<u32>,
    system: Vec<u32>,
    next: u32,
}

impl Plain {
    fn rows_mut(&mut self, track: Track) -> &mut [u32] {
        match track {
            Track::User => self.user.as_mut_slice(),
            Track::System => self.system.as_mut_slice(),
        }
    }

    fn track_of(&self, viewer: u32) -> Option<Track> {
        if plain::top(self.user.as_slice(), viewer).is_some() {
            return Some(Track::User);
        }
        plain::top(self.system.as_slice(), viewer)?;
        Some(Track::System)
    }
}

// What a viewer shows.
fn text_of(viewer: u32) -> u32 {
    viewer.wrapping_mul(7).wrapping_add(3)
}

fn opens(screen: &mut Screen<u32>, plain: &mut Plain, dice: &mut Dice) -> Result<(), Fail> {
    let track = if dice.below(2) == 0 {
        Track::User
    } else {
        Track::System
    };
    let row = dice.row(screen.height());
    let next = plain.next;
    let answer = open(screen, track, row, text_of(next))?;
    if plain::open(plain.rows_mut(track), next, row) {
        plain.next = next.saturating_add(1);
        return is(answer == Ok(next), "a viewer opens");
    }
    is(answer == Err(Refusal::NoRoom), "there is no room")
}

fn closes(screen: &mut Screen<u32>, plain: &mut Plain, viewer: u32) -> Result<(), Fail> {
    let answer = screen.close(viewer);
    let Some(track) = plain.track_of(viewer) else {
        return is(answer == Err(Refusal::NoViewer), "none to close");
    };
    plain::close(plain.rows_mut(track), viewer);
    is(answer == Ok(text_of(viewer)), "a viewer closes")
}

fn moves(screen: &mut Screen<u32>, plain: &mut Plain, viewer: u32, row: usize) -> Result<(), Fail> {
    let answer = move_top(screen, viewer, row)?;
    let Some(track) = plain.track_of(viewer) else {
        return is(answer == Err(Refusal::NoViewer), "none to move");
    };
    if plain::move_top(plain.rows_mut(track), viewer, row) {
        return is(answer == Ok(()), "a top is moved");
    }
    is(answer == Err(Refusal::NoRoom), "it may not be moved")
}

fn changes(screen: &mut Screen<u32>, plain: &mut Plain, dice: &mut Dice) -> Result<(), Fail> {
    let kind = dice.below(10);
    if kind < 5 {
        return opens(screen, plain, dice);
    }
    let viewer = dice.viewer(plain.next);
    if kind < 7 {
        return closes(screen, plain, viewer);
    }
    let row = dice.below(screen.height());
    moves(screen, plain, viewer, row)
}

// Whether each row of a track is the viewer's that the list has.
fn agree_at(screen: &Screen<u32>, rows: &[u32], first: usize, last: usize) -> Result<(), Fail> {
    is(rows.len() == screen.height(), "all rows")?;
    for row in 0..screen.height() {
        let viewer = rows.get(row).copied().filter(|it| *it != 0);
        is(screen.at(first, row) == viewer, "the viewer at the left")?;
        is(screen.at(last, row) == viewer, "the viewer at the right")?;
    }
    Ok(())
}

// The cells that the list gives a viewer.
fn area(screen: &Screen<u32>, plain: &Plain, viewer: u32) -> Option<Area> {
    let border = screen.width() / 8 * 5;
    let track = plain.track_of(viewer)?;
    let (rows, col, width) = match track {
        Track::User => (plain.user.as_slice(), 0, border),
        Track::System => (
            plain.system.as_slice(),
            border,
            screen.width().saturating_sub(border),
        ),
    };
    Some(Area {
        col,
        top: plain::top(rows, viewer)?,
        width,
        height: plain::height(rows, viewer),
    })
}

fn agree(screen: &Screen<u32>, plain: &Plain) -> Result<(), Fail> {
    let border = screen.width() / 8 * 5;
    agree_at(screen, plain.user.as_slice(), 0, border.saturating_sub(1))?;
    let last = screen.width().saturating_sub(1);
    agree_at(screen, plain.system.as_slice(), border, last)?;
    for viewer in 1..plain.next {
        is(
            screen.area(viewer) == area(screen, plain, viewer),
            "an area",
        )?;
        let shown = plain.track_of(viewer).map(|_| text_of(viewer));
        is(screen.content_at(viewer).copied() == shown, "what is shown")?;
    }
    Ok(())
}

fn all_changes(screen: &mut Screen<u32>, plain: &mut Plain, dice: &mut Dice) -> Result<(), Fail> {
    for _ in 0..CHANGES {
        changes(screen, plain, dice)?;
        agree(screen, plain)?;
    }
    Ok(())
}

fn agrees_all_along(alloc: Global, screen: &mut Screen<u32>, dice: &mut Dice) -> Result<(), Fail> {
    let user = fallible::vec![alloc; 0_u32; screen.height()]?;
    let system = fallible::vec![alloc; 0_u32; screen.height()]?;
    let mut plain = Plain {
        user,
        system,
        next: 1,
    };
    all_changes(screen, &mut plain, dice)
}

fn agrees_at_all_heights(alloc: Global, dice: &mut Dice) -> Result<(), Fail> {
    for height in MIN_HEIGHT..=MAX_HEIGHT {
        let width = MIN_WIDTH.saturating_add(dice.below(181)).min(MAX_WIDTH);
        agrees_all_along(alloc, &mut Screen::new(alloc, width, height)?, dice)?;
    }
    Ok(())
}

// Whatever opens, closes and moves, a screen tells what plain lists of rows tell.
#[test]
fn a_screen_tells_what_plain_rows_tell() -> Result<(), Fail> {
    agrees_at_all_heights(fallible::Global, &mut Dice { state: 1 })
}
