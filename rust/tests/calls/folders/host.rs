//! The folder over memory beside the system's own, call by call, where none fails by chance.
use super::dice::Dice;
use super::in_memory::FolderInMemory;
use super::told::{Content, Moment};
use fallible::Global;
use folder_shelf::{Folder, HostFolder};
use std::fs::Permissions;
use std::os::unix::fs::{PermissionsExt, symlink};
use std::{env, fs, io, process};

const CALLS: usize = 2_000;
const MODES: [u32; 4] = [0o600, 0o640, 0o664, 0o400];
const NAMES: [&str; 5] = ["a", "b", "c", "d", "a-link"];

fn is(right: bool, what: &'static str) -> io::Result<()> {
    if right { Ok(()) } else { Err(io::Error::other(what)) }
}

// What a call answered: its value, or the kind of its error.
fn told<T>(answer: &io::Result<T>) -> Result<&T, io::ErrorKind> {
    answer.as_ref().map_err(io::Error::kind)
}

// Makes a file in both, gives it the mode of the one whose place it is to take, writes to it and syncs it, as far as that goes.
fn makes(host: &mut HostFolder, memory: &mut FolderInMemory, [name, to]: [&str; 2], bytes: &[u8]) -> io::Result<()> {
    match (host.make_new(name, to), memory.make_new(name, to)) {
        (Ok(mut one), Ok(mut other)) => {
            is(files()? == known_files(&memory.now), "the same new file")?;
            is(
                told(&host.take_mode(&one, to)) == told(&memory.take_mode(&other, to)),
                "the taking of a mode",
            )?;
            host.append(&mut one, bytes)?;
            memory.append(&mut other, bytes)?;
            host.append(&mut one, bytes)?;
            memory.append(&mut other, bytes)?;
            host.sync(&one)?;
            memory.sync(&other)?;
            Ok(())
        }
        (one, other) => is(told(&one.map(drop)) == told(&other.map(drop)), "a making that fails"),
    }
}

// Reads a file in both.
fn reads(host: &mut HostFolder, memory: &mut FolderInMemory, name: &str) -> io::Result<()> {
    let (seen, known) = (host.look(name), memory.look(name));
    is(told(&seen) == told(&known), "a look at a name")?;
    if matches!(seen, Ok(None)) {
        return Ok(());
    }
    match (host.open(name), memory.open(name)) {
        (Ok(mut one), Ok(mut other)) => {
            let (mut came, mut kept) = (fallible::Vec::new(Global), fallible::Vec::new(Global));
            let counts = (host.read(&mut one, &mut came)?, memory.read(&mut other, &mut kept)?);
            is(
                counts.0 == counts.1 && came.as_slice() == kept.as_slice(),
                "the bytes of a file",
            )?;
            is(host.read(&mut one, &mut came)? == 0, "nothing behind a file's end")
        }
        (one, other) => is(told(&one.map(drop)) == told(&other.map(drop)), "an opening that fails"),
    }
}

// Changes the mode of a plain file in both.
fn changes_mode(memory: &mut FolderInMemory, name: &str, mode: u32) -> io::Result<()> {
    let now = &mut memory.now;
    match now.names.get(name).map(|file| &mut now.files[*file]) {
        Some(kept) if kept.content != Content::Special => {
            kept.mode = mode;
            fs::set_permissions(name, Permissions::from_mode(mode))
        }
        _ => Ok(()),
    }
}

fn one_call(host: &mut HostFolder, memory: &mut FolderInMemory, dice: &mut Dice) -> io::Result<()> {
    let (name, to) = (NAMES[dice.below(NAMES.len())], NAMES[dice.below(NAMES.len())]);
    match dice.below(6) {
        0 => makes(host, memory, [name, to], &dice.letters()),
        1 => reads(host, memory, name),
        2 => is(
            told(&host.rename(name, to)) == told(&memory.rename(name, to)),
            "a renaming",
        ),
        3 => changes_mode(memory, name, MODES[dice.below(MODES.len())]),
        4 => is(told(&host.remove(name)) == told(&memory.remove(name)), "a removal"),
        _ => is(
            told(&host.sync_folder()) == told(&memory.sync_folder()),
            "a sync of the folder",
        ),
    }
}

// What the current folder has.
fn files() -> io::Result<Vec<(String, Content, u32)>> {
    let mut found = Vec::new();
    for entry in fs::read_dir(".")? {
        let entry = entry?;
        let content = if entry.file_type()?.is_file() {
            Content::Plain(fs::read(entry.path())?)
        } else {
            Content::Special
        };
        let mode = entry.metadata()?.permissions().mode() & 0o777;
        found.push((entry.file_name().into_string().unwrap_or_default(), content, mode));
    }
    found.sort_by(|one, other| one.0.cmp(&other.0));
    Ok(found)
}

fn known_files(moment: &Moment) -> Vec<(String, Content, u32)> {
    moment
        .names
        .iter()
        .map(|(name, file)| (name.clone(), moment.files[*file].content.clone(), moment.files[*file].mode))
        .collect()
}

fn usual_mode() -> io::Result<u32> {
    fs::write("new", "")?;
    let mode = fs::metadata("new")?.permissions().mode() & 0o777;
    fs::remove_file("new")?;
    Ok(mode)
}

fn plays_both() -> io::Result<()> {
    symlink("nowhere", "a-link")?;
    let dice = Dice { state: 1 };
    let mut memory = FolderInMemory::new(Moment::of([("a-link".to_owned(), Content::Special, 0o777)]), dice, 0);
    memory.usual = usual_mode()?;
    let (mut host, mut dice) = (HostFolder, Dice { state: 2 });
    for _ in 0..CALLS {
        one_call(&mut host, &mut memory, &mut dice)?;
        is(files()? == known_files(&memory.now), "the same files")?;
    }
    Ok(())
}

#[test]
fn the_systems_folder_does_the_same() -> io::Result<()> {
    let room = env::temp_dir().join(format!("folders-{}", process::id()));
    fs::create_dir(&room)?;
    env::set_current_dir(&room)?;
    let outcome = plays_both();
    env::set_current_dir("/")?;
    fs::remove_dir_all(&room)?;
    outcome
}
