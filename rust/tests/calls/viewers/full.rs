//! Tracks with as many viewers as there can be.
use super::{is, open};
use fallible::Fail;
use looks::Refusal;
use viewers::{MAX_SEATS, Screen, Track};

// Opens viewers from the bottom up, each in two rows.
fn fill(screen: &mut Screen<u32>, track: Track, first: u32) -> Result<(), Fail> {
    is(open(screen, track, None, first)? == Ok(first), "the first")?;
    for viewer in 1..50_u32 {
        let row = 100_usize.saturating_sub((viewer as usize).saturating_mul(2));
        let number = first.saturating_add(viewer);
        is(
            open(screen, track, Some(row), number)? == Ok(number),
            "one more",
        )?;
    }
    is(screen.seats(track).len() == MAX_SEATS, "fifty")
}

// No row has room for one more, and to try changes nothing.
fn is_full(screen: &mut Screen<u32>, track: Track) -> Result<(), Fail> {
    let rows = (0..100_usize).map(Some).chain([None]);
    for row in rows {
        is(open(screen, track, row, 1)? == Err(Refusal::NoRoom), "full")?;
    }
    is(screen.seats(track).len() == MAX_SEATS, "fifty")?;
    for seat in screen.seats(track) {
        is(seat.height == 2, "two rows each")?;
        is(
            screen.content_at(seat.number) == Some(&seat.number),
            "what it shows",
        )?;
    }
    Ok(())
}

// Changes what all of them show, and takes it back as they close.
fn empties(screen: &mut Screen<u32>) -> Result<(), Fail> {
    for text in screen.contents_mut() {
        *text = text.saturating_add(1);
    }
    for viewer in 1..=100_u32 {
        is(
            screen.close(viewer) == Ok(viewer.saturating_add(1)),
            "what it showed",
        )?;
    }
    is(screen.seats(Track::User).is_empty(), "the user track")?;
    is(screen.seats(Track::System).is_empty(), "the system track")?;
    is(
        open(screen, Track::User, None, 1)? == Ok(101),
        "a number of its own",
    )
}

fn fills_and_empties(screen: &mut Screen<u32>) -> Result<(), Fail> {
    fill(screen, Track::User, 1)?;
    fill(screen, Track::System, 51)?;
    is_full(screen, Track::User)?;
    is_full(screen, Track::System)?;
    empties(screen)
}

#[test]
fn fifty_viewers_fill_a_track() -> Result<(), Fail> {
    fills_and_empties(&mut Screen::new(fallible::Global, 200, 100)?)
}
