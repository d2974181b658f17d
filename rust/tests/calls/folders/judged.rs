//! Each call of the folder over memory, held to what a folder's contract says of it.
use super::in_memory::{FolderInMemory, Open};
use super::told::{Content, Moment, Names};
use folder_shelf::{Folder, MAX_PIECE, PRIVATE};
use std::io::{self, ErrorKind};

pub struct Judged {
    pub folder: FolderInMemory,
    /// The calls that did something else.
    pub wrong: Vec<&'static str>,
    /// The calls that failed.
    pub failed: Vec<&'static str>,
}

fn same(old: &Moment, new: &Moment) -> bool {
    old.names == new.names && old.kept == new.kept && old.files == new.files
}

fn no_fault(old: &Moment, new: &Moment) -> bool {
    old.faults == new.faults
}

fn fails(why: &io::Error, old: &Moment, new: &Moment) -> bool {
    if why.kind() == ErrorKind::OutOfMemory {
        no_fault(old, new)
    } else {
        old.faults < new.faults
    }
}

fn others_stay(old: &Names, new: &Names, but: &[&str]) -> bool {
    let mut all = old.keys().chain(new.keys());
    all.all(|name| but.contains(&name.as_str()) || old.get(name) == new.get(name))
}

fn other_files_stay(file: usize, old: &Moment, new: &Moment) -> bool {
    let count = old.files.len().max(new.files.len());
    (0..count).all(|other| other == file || old.files.get(other) == new.files.get(other))
}

fn makes(name: &str, file: usize, old: &Moment, new: &Moment) -> bool {
    !old.names.contains_key(name)
        && !old
            .lasting()
            .iter()
            .any(|names| names.values().any(|number| *number == file))
        && new.names.get(name) == Some(&file)
        && others_stay(&old.names, &new.names, &[name])
        && new.kept == old.lasting()
        && new.files[file].content == Content::Plain(Vec::new())
        && other_files_stay(file, old, new)
}

// Whether a new file that is to take the place of a name's plain file, if there is one, is its owner's alone.
fn is_made_for(target: &str, file: usize, old: &Moment, new: &Moment) -> bool {
    old.seen(target) != Some(&Content::Special)
        && (!old.names.contains_key(target) || new.files[file].mode == PRIVATE)
}

fn makes_not(why: &io::Error, name: &str, target: &str, old: &Moment, new: &Moment) -> bool {
    if why.kind() == ErrorKind::AlreadyExists {
        return old.names.contains_key(name) && same(old, new) && no_fault(old, new);
    }
    let made = || {
        let file = new.names.get(name);
        file.is_some_and(|file| makes(name, *file, old, new) && is_made_for(target, *file, old, new))
    };
    (same(old, new) || made()) && fails(why, old, new)
}

fn touches(file: usize, old: &Moment, new: &Moment) -> bool {
    old.names == new.names && old.kept == new.kept && other_files_stay(file, old, new)
}

fn keeps_mode(file: usize, old: &Moment, new: &Moment) -> bool {
    new.files[file].mode == old.files[file].mode
}

// Whether a file is touched, and keeps its mode.
fn touches_content(file: usize, old: &Moment, new: &Moment) -> bool {
    touches(file, old, new) && keeps_mode(file, old, new)
}

// Whether a file is touched, and keeps its mode or has that of a name's file, if there is one.
fn touches_mode(file: usize, name: &str, old: &Moment, new: &Moment) -> bool {
    let taken = old.mode(name).is_none_or(|mode| new.files[file].mode == mode);
    touches(file, old, new) && (taken || keeps_mode(file, old, new))
}

fn takes_mode(file: usize, name: &str, old: &Moment, new: &Moment) -> bool {
    touches(file, old, new)
        && new.files[file].content == old.files[file].content
        && old.mode(name).is_none_or(|mode| new.files[file].mode == mode)
        && old.seen(name) != Some(&Content::Special)
}

fn appends(file: usize, bytes: &[u8], old: &Moment, new: &Moment) -> bool {
    let Content::Plain(before) = &old.files[file].content else {
        return touches(file, old, new);
    };
    touches(file, old, new)
        && new.files[file].content == Content::Plain([before, bytes].concat())
        && keeps_mode(file, old, new)
}

fn syncs(file: usize, old: &Moment, new: &Moment) -> bool {
    touches(file, old, new)
        && new.files[file].content == old.files[file].content
        && keeps_mode(file, old, new)
        && new.files[file].synced
}

fn moves(from: &str, to: &str, old: &Moment, new: &Moment) -> bool {
    (from == to || !new.names.contains_key(from))
        && new.names.get(to) == old.names.get(from)
        && others_stay(&old.names, &new.names, &[from, to])
        && new.kept == old.lasting()
        && new.files == old.files
}

fn removes(name: &str, old: &Moment, new: &Moment) -> bool {
    !new.names.contains_key(name)
        && others_stay(&old.names, &new.names, &[name])
        && new.kept == old.lasting()
        && new.files == old.files
}

fn syncs_folder(old: &Moment, new: &Moment) -> bool {
    new.names == old.names && new.kept.is_empty() && new.files == old.files
}

fn shows(name: &str, len: Option<u64>, old: &Moment) -> bool {
    match old.seen(name) {
        Some(Content::Plain(bytes)) => len == Some(bytes.len() as u64),
        _ => len.is_none(),
    }
}

// That so many bytes came of a file, from this place on, and stand behind what was there.
fn gives(open: (usize, usize), count: usize, came: &[u8], old: &Moment) -> bool {
    let (file, start) = open;
    let Content::Plain(all) = &old.files[file].content else {
        return true;
    };
    let end = start + count;
    end <= all.len() && *came == all[start..end] && (MAX_PIECE <= count || end == all.len())
}

impl Judged {
    // Does a call, and holds it to one step or, where it fails, to that step or none.
    fn call<T>(
        &mut self,
        what: &'static str,
        call: impl FnOnce(&mut FolderInMemory) -> io::Result<T>,
        well: impl FnOnce(&T, &Moment, &Moment) -> bool,
        ill: impl FnOnce(&io::Error, &Moment, &Moment) -> bool,
    ) -> io::Result<T> {
        let (old, past) = (self.folder.now.clone(), self.folder.past.len());
        let answer = call(&mut self.folder);
        let new = &self.folder.now;
        let is_next = self.folder.past.len() == past + 1 && self.folder.past.last() == Some(&old);
        let is_step = match &answer {
            Ok(value) => well(value, &old, new) && no_fault(&old, new),
            Err(why) => ill(why, &old, new),
        };
        if !is_next || !is_step {
            self.wrong.push(what);
        }
        if answer.as_ref().is_err_and(|why| why.kind() != ErrorKind::AlreadyExists) {
            self.failed.push(what);
        }
        answer
    }
}

// A call that failed, and may have done a step or not.
fn perhaps(step: impl FnOnce(&Moment, &Moment) -> bool) -> impl FnOnce(&io::Error, &Moment, &Moment) -> bool {
    |why, old, new| (same(old, new) || step(old, new)) && fails(why, old, new)
}

impl Folder for Judged {
    type File = Open;

    fn make_new(&mut self, name: &str, target: &str) -> io::Result<Open> {
        let well = |file: &Open, old: &Moment, new: &Moment| {
            makes(name, file.number, old, new) && is_made_for(target, file.number, old, new)
        };
        self.call(
            "make_new",
            |folder| folder.make_new(name, target),
            well,
            |why, old, new| makes_not(why, name, target, old, new),
        )
    }

    fn take_mode(&mut self, file: &Open, name: &str) -> io::Result<()> {
        let well = |(): &(), old: &Moment, new: &Moment| takes_mode(file.number, name, old, new);
        self.call(
            "take_mode",
            |folder| folder.take_mode(file, name),
            well,
            perhaps(|old, new| touches_mode(file.number, name, old, new)),
        )
    }

    fn append(&mut self, file: &mut Open, bytes: &[u8]) -> io::Result<()> {
        let number = file.number;
        let well = |(): &(), old: &Moment, new: &Moment| appends(number, bytes, old, new);
        self.call(
            "append",
            |folder| folder.append(file, bytes),
            well,
            perhaps(|old, new| touches_content(number, old, new)),
        )
    }

    fn sync(&mut self, file: &Open) -> io::Result<()> {
        let well = |(): &(), old: &Moment, new: &Moment| syncs(file.number, old, new);
        self.call(
            "sync",
            |folder| folder.sync(file),
            well,
            perhaps(|old, new| touches_content(file.number, old, new)),
        )
    }

    fn rename(&mut self, from: &str, to: &str) -> io::Result<()> {
        let well = |(): &(), old: &Moment, new: &Moment| moves(from, to, old, new);
        self.call(
            "rename",
            |folder| folder.rename(from, to),
            well,
            perhaps(|old, new| moves(from, to, old, new)),
        )
    }

    fn remove(&mut self, name: &str) -> io::Result<()> {
        let well = |(): &(), old: &Moment, new: &Moment| removes(name, old, new);
        self.call(
            "remove",
            |folder| folder.remove(name),
            well,
            perhaps(|old, new| removes(name, old, new)),
        )
    }

    fn sync_folder(&mut self) -> io::Result<()> {
        let well = |(): &(), old: &Moment, new: &Moment| syncs_folder(old, new);
        self.call("sync_folder", |folder| folder.sync_folder(), well, perhaps(same))
    }

    fn look(&mut self, name: &str) -> io::Result<Option<u64>> {
        let well = |len: &Option<u64>, old: &Moment, new: &Moment| same(old, new) && shows(name, *len, old);
        self.call("look", |folder| folder.look(name), well, perhaps(same))
    }

    fn open(&mut self, name: &str) -> io::Result<Open> {
        let well = |file: &Open, old: &Moment, new: &Moment| {
            same(old, new) && old.names.get(name) == Some(&file.number) && file.place == 0
        };
        self.call("open", |folder| folder.open(name), well, perhaps(same))
    }

    fn read(&mut self, file: &mut Open, bytes: &mut fallible::Vec<u8>) -> io::Result<usize> {
        let (number, place, before) = (file.number, file.place, bytes.len());
        let mut came = Vec::new();
        let call = |folder: &mut FolderInMemory| {
            let count = folder.read(file, bytes)?;
            came.extend_from_slice(&bytes[before..]);
            Ok(count)
        };
        let answer = self.call("read", call, |_, old, new| same(old, new), perhaps(same));
        let is_right = |count: &usize| {
            came.len() == *count
                && file.place == place + count
                && gives((number, place), *count, &came, &self.folder.now)
        };
        if !answer.as_ref().map_or(true, is_right) {
            self.wrong.push("read");
        }
        answer
    }
}
