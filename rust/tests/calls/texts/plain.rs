//! A plain list of a text's characters. It knows what it has looked up, less what the text's changes tell.
use super::is;
use char_files::{Char, Name};
use fallible::{Fail, Vec};
use list_changes::{Change, ChangeKind};
use looks::Looks;
use texts::Replica;

// A character, as far as it is known: its name and its byte, and its looks.
pub(super) struct Entry {
    char: Option<(Name, u8)>,
    looks: Option<Looks>,
}

fn put(list: &mut Vec<Entry>, at: usize) -> Result<(), Fail> {
    if list.len() < at {
        return Err("an insert past the end".into());
    }
    let unknown = Entry {
        char: None,
        looks: None,
    };
    list.insert(at, unknown)?;
    Ok(())
}

fn cut(list: &mut Vec<Entry>, at: usize) -> Result<(), Fail> {
    if list.len() <= at {
        return Err("a delete past the end".into());
    }
    list.remove(at);
    Ok(())
}

fn dress(list: &mut Vec<Entry>, at: usize) -> Result<(), Fail> {
    let entry = list.get_mut(at).ok_or("a replace past the end")?;
    entry.looks = None;
    Ok(())
}

// Makes a change of the list, position by position.
fn apply(list: &mut Vec<Entry>, change: &Change) -> Result<(), Fail> {
    is(change.beg < change.end, "a change of something")?;
    for pos in change.beg..change.end {
        match change.kind {
            ChangeKind::Insert => put(list, pos as usize)?,
            ChangeKind::Delete => cut(list, change.beg as usize)?,
            ChangeKind::Replace => dress(list, pos as usize)?,
        }
    }
    Ok(())
}

pub(super) fn apply_all(list: &mut Vec<Entry>, changes: &[Change]) -> Result<(), Fail> {
    for change in changes {
        apply(list, change)?;
    }
    Ok(())
}

// Whether an entry may stand for a character, by what is known.
fn may_be(entry: &Entry, char: &Char) -> bool {
    let named = match entry.char {
        Some(known) => known == (char.name, char.byte),
        None => true,
    };
    let dressed = match &entry.looks {
        Some(known) => *known == char.looks,
        None => true,
    };
    named && dressed
}

// What is known of the character agrees, and all of it is known now.
fn learn(entry: &mut Entry, char: Char) -> Result<(), Fail> {
    is(may_be(entry, &char), "what is shown here")?;
    entry.char = Some((char.name, char.byte));
    entry.looks = Some(char.looks);
    Ok(())
}

// All that is known is shown, and all that is shown is known now.
pub(super) fn learn_all(list: &mut [Entry], replica: &Replica) -> Result<(), Fail> {
    is(
        replica.shown_len() == list.len() as u64,
        "how much is shown",
    )?;
    let mut shown = replica.shown();
    for entry in list {
        let Some(char) = shown.next() else {
            return Err("a character".into());
        };
        learn(entry, char)?;
    }
    is(shown.next().is_none(), "no more is shown")
}

// Whether the replica shows just this, by what is known.
pub(super) fn shows(replica: &Replica, list: &[Entry]) -> bool {
    let mut shown = replica.shown();
    for entry in list {
        let Some(char) = shown.next() else {
            return false;
        };
        if !may_be(entry, &char) {
            return false;
        }
    }
    shown.next().is_none()
}

// The bytes that are known.
pub(super) fn spells(list: &[Entry], bytes: &[u8]) -> bool {
    let mut left = bytes.iter();
    for entry in list {
        let Some((_, byte)) = entry.char else {
            return false;
        };
        if left.next() != Some(&byte) {
            return false;
        }
    }
    left.next().is_none()
}
