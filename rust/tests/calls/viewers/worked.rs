//! A worked row: how one track of ten rows is divided, call by call.
use super::{is, move_top, open};
use fallible::Fail;
use looks::Refusal;
use viewers::{Area, Screen, Seat, Track};

// The columns of the user track of a screen of 80.
const WIDTH: usize = 50;

// Each viewer of the user track from the top, with its height.
fn divides(screen: &Screen<u32>, seats: &[(u32, usize)]) -> Result<(), Fail> {
    let found = screen.seats(Track::User);
    is(found.len() == seats.len(), "how many viewers")?;
    let mut top: usize = 0;
    for (seat, told) in found.iter().zip(seats) {
        let (number, height) = *told;
        is(*seat == Seat { number, height }, "a seat")?;
        let area = Area {
            col: 0,
            top,
            width: WIDTH,
            height,
        };
        is(screen.area(number) == Some(area), "an area")?;
        top = top.saturating_add(height);
    }
    is(screen.seats(Track::System).is_empty(), "the other track")
}

fn opens(screen: &mut Screen<u32>) -> Result<(), Fail> {
    for viewer in 1..=3 {
        is(
            open(screen, Track::User, None, 1)? == Ok(viewer),
            "its number",
        )?;
    }
    divides(screen, &[(1, 2), (3, 3), (2, 5)])?;
    let refused = open(screen, Track::User, Some(3), 1)?;
    is(refused == Err(Refusal::NoRoom), "three rows")?;
    divides(screen, &[(1, 2), (3, 3), (2, 5)])?;
    is(
        open(screen, Track::User, Some(8), 1)? == Ok(4),
        "its number",
    )?;
    divides(screen, &[(1, 2), (3, 3), (2, 3), (4, 2)])
}

fn closes(screen: &mut Screen<u32>) -> Result<(), Fail> {
    is(screen.close(1) == Ok(1), "what it showed")?;
    is(screen.close(1) == Err(Refusal::NoViewer), "a closed one")?;
    divides(screen, &[(3, 5), (2, 3), (4, 2)])
}

fn moves(screen: &mut Screen<u32>) -> Result<(), Fail> {
    is(move_top(screen, 2, 3)? == Ok(()), "a move up")?;
    is(move_top(screen, 2, 7)? == Err(Refusal::NoRoom), "one row")?;
    is(
        move_top(screen, 3, 1)? == Err(Refusal::NoRoom),
        "the topmost",
    )?;
    is(
        move_top(screen, 1, 5)? == Err(Refusal::NoViewer),
        "a closed one",
    )?;
    divides(screen, &[(3, 3), (2, 5), (4, 2)])
}

// What is seen at cells, and what viewers show.
fn shows(screen: &mut Screen<u32>) -> Result<(), Fail> {
    let cells = [
        (0, 2, Some(3)),
        (49, 3, Some(2)),
        (0, 9, Some(4)),
        (50, 9, None),
        (80, 9, None),
    ];
    if screen.height() < 10 {
        return Err("ten rows".into());
    }
    for (col, row, viewer) in cells {
        is(screen.at(col, row) == viewer, "the viewer at a cell")?;
    }
    if let Some(text) = screen.content(2) {
        *text = 7;
    }
    is(screen.content(1).is_none(), "a closed one")?;
    is(screen.content_at(2) == Some(&7), "another text")?;
    is(screen.content_at(3) == Some(&1), "the text as it was")?;
    is(
        &*screen.contents_mut() == [7, 1, 1].as_slice(),
        "in order of opening",
    )
}

fn divides_as_worked_out(screen: &mut Screen<u32>) -> Result<(), Fail> {
    opens(screen)?;
    closes(screen)?;
    moves(screen)?;
    shows(screen)
}

#[test]
fn a_track_is_divided_as_worked_out() -> Result<(), Fail> {
    divides_as_worked_out(&mut Screen::new(fallible::Global, 80, 10)?)
}
