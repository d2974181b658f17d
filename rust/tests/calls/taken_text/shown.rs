use super::is;
use super::stretches::tells_stretches;
use super::told::{Does, Parts, TOLD, name, take, take_all};
use char_files::Char;
use fallible::{Fail, Global};
use taken_text::TakenText;

// Each character that is shown: its name, its byte, its colour.
const SHOWN: &[(Parts, u8, u8)] = &[((1, 0), b'A', 1), ((2, 0), b'X', 1), ((1, 1), b'C', 3)];

pub(super) fn parts_of(char: &Char) -> (Parts, u8, u8) {
    let name = (char.name.site().get(), char.name.off());
    (name, char.byte, char.looks.colour.number())
}

// Characters and their places: so many are shown up to them.
const PLACES: &[(Parts, Option<u64>)] = &[
    ((1, 0), Some(1)),
    ((2, 0), Some(2)),
    ((1, 2), Some(2)),
    ((1, 1), Some(3)),
    ((1, 3), None),
    ((3, 0), None),
];

fn is_empty(text: &TakenText) -> Result<(), Fail> {
    is(text.shown_len() == 0, "no character")?;
    is(text.shown().next().is_none(), "nothing shown")?;
    is(text.place_of(name((1, 0))?).is_none(), "no place")
}

fn is_at(text: &TakenText, pos: u64, want: (Parts, u8, u8)) -> Result<(), Fail> {
    if text.shown_len() <= pos {
        return Err("a position".into());
    }
    is(parts_of(&text.char_at(pos)) == want, "what stands there")
}

fn is_shown(text: &TakenText) -> Result<(), Fail> {
    is(text.shown_len() == 3, "three characters")?;
    let mut shown = text.shown();
    for (pos, want) in SHOWN.iter().enumerate() {
        let char = shown.next().ok_or("a character")?;
        is(parts_of(&char) == *want, "what is shown")?;
        is_at(text, pos as u64, *want)?;
    }
    is(shown.next().is_none(), "the end")
}

fn has_places(text: &TakenText) -> Result<(), Fail> {
    for (parts, place) in PLACES {
        is(text.place_of(name(*parts)?) == *place, "a place")?;
    }
    Ok(())
}

fn is_told(text: &mut TakenText, alloc: Global) -> Result<(), Fail> {
    is_empty(text)?;
    take_all(text, alloc, TOLD)?;
    is_shown(text)?;
    has_places(text)?;
    tells_stretches(text, alloc)
}

// What a text shows while it is empty, and then of three characters and one that is hidden.
#[test]
fn what_is_shown_is_read() -> Result<(), Fail> {
    let mut text = TakenText::new(fallible::Global)?;
    is_told(&mut text, fallible::Global)
}

// So many characters were typed at the front one by one.
const MANY: u32 = 1000;

fn type_many(text: &mut TakenText, alloc: Global) -> Result<(), Fail> {
    for n in 0..MANY {
        let does = Does::Insert(None, n, b"a");
        take(text, alloc, (1, n + 1, u64::from(n) + 1, does))?;
    }
    Ok(())
}

fn shows_many(text: &TakenText) -> Result<(), Fail> {
    is(text.shown_len() == u64::from(MANY), "so many")?;
    let mut shown = text.shown();
    for n in (0..MANY).rev() {
        let char = shown.next().ok_or("a character")?;
        is(parts_of(&char) == ((1, n), b'a', 1), "the one typed before")?;
    }
    is(shown.next().is_none(), "the end")
}

fn is_long(text: &mut TakenText, alloc: Global) -> Result<(), Fail> {
    type_many(text, alloc)?;
    shows_many(text)
}

#[test]
fn a_long_text_is_read_piece_by_piece() -> Result<(), Fail> {
    let mut text = TakenText::new(fallible::Global)?;
    is_long(&mut text, fallible::Global)
}
