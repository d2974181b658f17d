//! What random notes show, by rows that the plain program of the second form wrote (share/tests/note_rows.py 74 8).
#[path = "../note_admission/driven.rs"]
mod driven;
#[path = "../note_rows.rs"]
mod note_rows;
mod own_edits;
mod played;

use calls::is;
use char_files::{Anchor, SiteNo, TextNo};
use fallible::{Fail, Global, Vec};
use looks::Looks;
use note::{Note, TEXTS};
use note_admission::Opening;
use note_entries::{Hash, Saying};
use note_hashes::NoteKey;
use operations::{Kind, Op};
use played::Played;

const ROWS: &str = include_str!("rows.txt");

#[test]
fn what_counts_is_shown_in_whatever_order_it_came() -> Result<(), Fail> {
    let mut played = Played::new()?;
    for row in ROWS.lines() {
        played.play(row)?;
    }
    let tally = played.tally;
    is(tally.anew_by_messages != 0, "no lesser hash came late")?;
    is(tally.anew_by_claims != 0, "no claim took a number over")?;
    is(!tally.nexts.contains(&0), "a fate is lacking")
}

// A letter of the founder, whose first message it is.
fn letter(key: &NoteKey, text: u16) -> Result<Saying, Fail> {
    let (text, site) = (TextNo::new(text).ok_or("no text")?, SiteNo::new(1).ok_or("no site")?);
    let kind = Kind::Insert {
        cause: Anchor::Root,
        at: 0,
        looks: Looks::plain(),
        bytes: Vec::from_slice(Global, b"x")?,
    };
    let op = Op::new(text, site, 1, 1, kind).ok_or("no operation")?;
    let nobody = Hash::new(0, 0);
    Ok(key.saying(Global, nobody, nobody, op, None)?)
}

#[test]
fn a_note_has_sixteen_texts() -> Result<(), Fail> {
    let opening = Opening {
        founder: Hash::new(0, 0),
        number: SiteNo::new(1),
    };
    let site = SiteNo::new(2).ok_or("no site")?;
    let key = NoteKey::new([7; 32]);
    let mut note = Note::new(Global, NoteKey::new([7; 32]), opening, Vec::new(Global), site)?;
    for number in 1..=TEXTS + 1 {
        note.say(letter(&key, number)?)?;
    }
    note.update()?;
    for number in 1..=TEXTS {
        let text = note.text(TextNo::new(number).ok_or("no text")?).ok_or("it lacks one")?;
        is((text.text().get(), text.site(), text.shown_len()) == (number, site, 1), "another text")?;
    }
    is(note.text(TextNo::new(TEXTS + 1).ok_or("no text")?).is_none(), "it has one more")
}
