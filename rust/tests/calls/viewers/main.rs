//! What no clause says: that calls succeed, and that rows are divided as they were worked out by hand.
use calls::is;
use fallible::Fail;
use looks::Refusal;
use viewers::{Screen, Track};

mod full;
mod plain;
mod random;
mod worked;

// Opens a viewer on a text, at a row or where none is named. It must be told whether there is room, and a text that is refused
// must come back.
fn open(
    screen: &mut Screen<u32>,
    track: Track,
    row: Option<usize>,
    text: u32,
) -> Result<Result<u32, Refusal>, Fail> {
    let (fits, answer) = match row {
        None => (screen.fits(track, None), screen.open_default(track, text)),
        Some(row) if row < screen.height() => (
            screen.fits(track, Some(row)),
            screen.open(track, row, text),
        ),
        Some(_) => return Err("a row of the screen".into()),
    };
    is(fits == answer.is_ok(), "whether there is room")?;
    match answer {
        Ok(viewer) => Ok(Ok(viewer)),
        Err((back, refusal)) => {
            is(back == text, "the text that comes back")?;
            Ok(Err(refusal))
        }
    }
}

// Moves the top of a viewer to a row of the screen.
fn move_top(
    screen: &mut Screen<u32>,
    viewer: u32,
    row: usize,
) -> Result<Result<(), Refusal>, Fail> {
    if screen.height() <= row {
        return Err("a row of the screen".into());
    }
    Ok(screen.move_top(viewer, row))
}
