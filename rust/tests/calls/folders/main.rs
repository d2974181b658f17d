//! A folder over memory that tells its history, and of which calls fail and crashes come by chance: what the clauses over a folder that
//! tells its history ask for can be had, and what they promise is so there. And it does what the system's folder does.
use calls::is;
use dice::Dice;
use fallible::{Fail, Global};
use folder_shelf::{FolderShelf, PRIVATE};
use in_memory::FolderInMemory;
use judged::Judged;
use looks::Refusal;
use shelf::Shelf;
use told::{Content, Left, Moment, USUAL};

mod dice;
mod host;
mod in_memory;
mod judged;
mod told;

const FOLDERS: u64 = 200;
const CALLS: usize = 30;
const NAMES: [&str; 4] = ["a", "b", "c", "a-link"];
// The mode of a file that is there.
const MODE: u32 = 0o640;
const BESIDE: &str = ".file-of-a-text-that-is-not-whole-yet-";

// A folder with a file, a link and, in one of two, a file that isn't whole yet.
fn folder(dice: Dice) -> Moment {
    let mut files = vec![
        ("a".to_owned(), Content::Plain(b"Oberon".to_vec()), MODE),
        ("a-link".to_owned(), Content::Special, 0o777),
    ];
    if dice.state % 2 == 0 {
        files.push((format!("{BESIDE}0"), Content::Plain(b"Obe".to_vec()), USUAL));
    }
    Moment::of(files)
}

// Says whether three things hold at a moment of a writing: the name's file has its old mode; what is no plain file is still there; the new
// file allows others no more than the old file does.
fn is_kept(name: &str, old: &Moment, now: &Moment) -> bool {
    let mut new = now.names.keys().filter(|each| each.starts_with(BESIDE) && !old.names.contains_key(*each));
    let stays = old.seen(name) != Some(&Content::Special) || now.seen(name) == Some(&Content::Special);
    stays
        && old.mode(name).is_none_or(|mode| {
            now.mode(name) == Some(mode) && new.all(|each| [Some(PRIVATE), Some(mode)].contains(&now.mode(each)))
        })
}

// Whether at a moment of a writing the name shows and keeps the old bytes or the new ones, whole, and another name what it did, but for a
// new file beside.
fn is_before_or_after(name: &str, bytes: &[u8], old: &Moment, now: &Moment) -> bool {
    let new = Content::Plain(bytes.to_vec());
    let mut names = old.lasting_names();
    names.extend(now.lasting_names());
    names.iter().all(|each| {
        let (shown, before) = (now.seen(each), old.left(each));
        let beside = each.starts_with(BESIDE) && !old.names.contains_key(each);
        let shows = shown == old.seen(each) || beside || (each == name && shown == Some(&new));
        let leaves =
            |left: &Left| left.is_among(&before) || beside || (each == name && *left == Left::Exactly(new.clone()));
        shows && now.left(each).iter().all(leaves)
    })
}

// Whether a file was replaced: the name shows the new bytes, a crash leaves them, and all other names show what they did.
fn is_replaced(name: &str, bytes: &[u8], old: &Moment, now: &Moment) -> bool {
    let new = Content::Plain(bytes.to_vec());
    let others = |each: &String| {
        let before = old.left(each);
        each == name || (now.seen(each) == old.seen(each) && now.left(each).iter().all(|left| left.is_among(&before)))
    };
    now.seen(name) == Some(&new)
        && old.seen(name) != Some(&Content::Special)
        && now.left(name).iter().all(|left| *left == Left::Exactly(new.clone()))
        && old.lasting_names().iter().all(others)
        && now.lasting_names().iter().all(others)
        && now.faults == old.faults
}

// The files that aren't whole yet.
fn beside(moment: &Moment) -> Vec<&String> {
    moment.names.keys().filter(|name| name.starts_with(BESIDE)).collect()
}

type Files = FolderShelf<Judged>;

fn shelf_of(folder: FolderInMemory) -> Files {
    FolderShelf::new(
        Judged {
            folder,
            wrong: Vec::new(),
            failed: Vec::new(),
        },
        Global,
    )
}

// Writes a file. At each moment of it the name has the old bytes or the new ones; what it answers is so.
fn writes(shelf: &mut Files, name: &str, bytes: &[u8]) -> Result<(), Fail> {
    shelf.folder.folder.past.clear();
    shelf.folder.failed.clear();
    let (old, failures) = (shelf.folder.folder.now.clone(), shelf.failures());
    let answer = shelf.write(name, bytes);
    let FolderInMemory { now, past, .. } = &shelf.folder.folder;
    for moment in past.iter().chain([now]) {
        is(
            is_before_or_after(name, bytes, &old, moment),
            "the old bytes or the new ones, whole",
        )?;
        is(is_kept(name, &old, moment), "the old mode, and nothing in place of a link")?;
    }
    if answer.is_ok() {
        return is(
            is_replaced(name, bytes, &old, now) && shelf.failures() == failures,
            "a file that is replaced",
        );
    }
    let failed = &shelf.folder.failed;
    let may_stay = failed.contains(&"make_new") || failed.contains(&"remove");
    is(
        may_stay || beside(now) == beside(&old),
        "no file that isn't whole is left, unless its making or its removal failed",
    )?;
    let lacked_memory = matches!(shelf.refused, Some(Refusal::OutOfMemory { .. }));
    is(lacked_memory || old.faults < now.faults, "a cause")?;
    is(shelf.failures() == failures + 1, "a failure that is counted")
}

// Reads a file: all its bytes, or a refusal that has a cause.
fn reads(shelf: &mut Files, name: &str) -> Result<(), Fail> {
    let (old, failures) = (shelf.folder.folder.now.clone(), shelf.failures());
    let answer = shelf.read(Global, name);
    let now = &shelf.folder.folder.now;
    let is_faulty = old.faults < now.faults || !matches!(old.seen(name), Some(Content::Plain(_)));
    match answer {
        Ok(bytes) => is(
            old.seen(name) == Some(&Content::Plain(bytes.as_slice().to_vec())),
            "all bytes of a file",
        ),
        Err(Refusal::OutOfMemory { .. }) => is(old.faults == now.faults, "no fault where memory is refused"),
        Err(_) => is(is_faulty && shelf.failures() == failures + 1, "a fault that is counted"),
    }
}

// After a crash at some moment of the last call each name has what it might have before, or the new bytes.
fn crashes(shelf: &mut Files, mut dice: Dice) -> Result<Files, Fail> {
    let folder = &shelf.folder.folder;
    let moments: Vec<&Moment> = folder.past.iter().chain([&folder.now]).collect();
    let moment = moments[dice.below(moments.len())];
    let after = folder.crashed(moment, dice.other());
    let mut names = moment.lasting_names().into_iter();
    let left = |name: &String| {
        after
            .now
            .seen(name)
            .map_or(Left::Nothing, |content| Left::Exactly(content.clone()))
    };
    is(
        names.all(|name| left(&name).is_among(&moment.left(&name))),
        "what a crash may leave",
    )?;
    Ok(shelf_of(after))
}

fn plays(seed: u64) -> Result<(usize, usize), Fail> {
    let mut dice = Dice { state: seed };
    let fails = [0, 3, 12][dice.below(3)];
    let mut shelf = shelf_of(FolderInMemory::new(folder(dice), dice.other(), fails));
    let (mut crashed, mut failed) = (0, 0);
    for _ in 0..CALLS {
        let (name, bytes) = (NAMES[dice.below(NAMES.len())], dice.letters());
        match dice.below(4) {
            0 => reads(&mut shelf, name)?,
            _ => writes(&mut shelf, name, &bytes)?,
        }
        if dice.below(4) == 0 {
            crashed += 1;
            failed += shelf.failures() as usize;
            is(shelf.folder.wrong.is_empty(), "calls that do what a folder's calls do")?;
            shelf = crashes(&mut shelf, dice.other())?;
        }
    }
    is(shelf.folder.wrong.is_empty(), "calls that do what a folder's calls do")?;
    Ok((crashed, failed + shelf.failures() as usize))
}

#[test]
fn files_are_whole_whatever_crash_comes() -> Result<(), Fail> {
    let (mut crashed, mut failed) = (0, 0);
    for seed in 1..=FOLDERS {
        let (more, others) = plays(seed)?;
        (crashed, failed) = (crashed + more, failed + others);
    }
    is(500 < crashed && 500 < failed, "many crashes and failures")
}
