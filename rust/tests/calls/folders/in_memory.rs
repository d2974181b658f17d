//! A folder over memory that tells its history, and of which calls fail by chance.
use super::dice::Dice;
use super::told::{Content, Kept, Moment, Names, USUAL};
use folder_shelf::{Folder, PRIVATE};
use std::io::{self, ErrorKind};

/// An open file: its number, and how many bytes of it were read.
#[derive(Debug)]
pub struct Open {
    pub number: usize,
    pub place: usize,
}

/// How a call ends.
#[derive(Clone, Copy)]
enum End {
    Well,
    /// It fails for this reason, once it was done.
    After(ErrorKind),
    /// It fails for this reason, and nothing is done.
    Before(ErrorKind),
}

pub struct FolderInMemory {
    pub now: Moment,
    pub past: Vec<Moment>,
    pub dice: Dice,
    /// One call in so many fails; none at 0.
    pub fails: usize,
    /// The mode of a new file.
    pub usual: u32,
}

impl FolderInMemory {
    pub fn new(now: Moment, dice: Dice, fails: usize) -> FolderInMemory {
        FolderInMemory {
            now,
            past: Vec::new(),
            dice,
            fails,
            usual: USUAL,
        }
    }

    fn end(&mut self) -> End {
        if self.fails == 0 || self.dice.below(self.fails) != 0 {
            return End::Well;
        }
        let kind = if self.dice.below(3) == 0 {
            ErrorKind::OutOfMemory
        } else {
            ErrorKind::Other
        };
        if self.dice.below(2) == 0 {
            End::After(kind)
        } else {
            End::Before(kind)
        }
    }

    // One call: at its end a step was done or not, and a failure is counted unless it is one of memory.
    fn go<T>(&mut self, step: impl FnOnce(&mut Moment) -> io::Result<T>) -> io::Result<T> {
        let end = self.end();
        self.go_to(end, step)
    }

    fn go_to<T>(&mut self, end: End, step: impl FnOnce(&mut Moment) -> io::Result<T>) -> io::Result<T> {
        self.past.push(self.now.clone());
        let answer = match end {
            End::Before(kind) => Err(kind.into()),
            End::Well => step(&mut self.now),
            End::After(kind) => step(&mut self.now).and(Err(kind.into())),
        };
        if answer.as_ref().is_err_and(is_counted) {
            self.now.faults += 1;
        }
        answer
    }

    /// The folder that a crash leaves of one of its moments: for each name what one of the names that may last has, and of a
    /// file that isn't synced anything.
    pub fn crashed(&self, moment: &Moment, mut dice: Dice) -> FolderInMemory {
        let lasting = moment.lasting();
        let mut left = Vec::new();
        for name in moment.lasting_names() {
            let names = &lasting[dice.below(lasting.len())];
            if let Some(file) = names.get(&name) {
                let kept = &moment.files[*file];
                left.push((name, surviving(kept, &mut dice), kept.mode));
            }
        }
        FolderInMemory::new(Moment::of(left), dice, self.fails)
    }
}

// (That there is a file already isn't a failure.)
fn is_counted(why: &io::Error) -> bool {
    !matches!(why.kind(), ErrorKind::OutOfMemory | ErrorKind::AlreadyExists)
}

// What a crash leaves of a file.
fn surviving(file: &Kept, dice: &mut Dice) -> Content {
    match (&file.content, file.synced) {
        (content, true) => content.clone(),
        (Content::Plain(bytes), false) if dice.below(2) == 0 => {
            Content::Plain(bytes[..dice.below(bytes.len() + 1)].to_vec())
        }
        (_, false) => Content::Plain(vec![0; dice.below(9)]),
    }
}

// Names change: those of before may come back, until the folder is synced.
fn rename_all(moment: &mut Moment, change: impl FnOnce(&mut Names)) {
    moment.kept = moment.lasting();
    change(&mut moment.names);
}

fn number_of(moment: &Moment, name: &str) -> io::Result<usize> {
    moment
        .names
        .get(name)
        .copied()
        .ok_or_else(|| ErrorKind::NotFound.into())
}

// The mode of a name's plain file, if it has one; something else is an error.
fn mode_of(moment: &Moment, name: &str) -> io::Result<Option<u32>> {
    match moment.seen(name) {
        Some(Content::Special) => Err(ErrorKind::InvalidInput.into()),
        _ => Ok(moment.mode(name)),
    }
}

impl Folder for FolderInMemory {
    type File = Open;

    fn make_new(&mut self, name: &str, target: &str) -> io::Result<Open> {
        let (old, usual) = (mode_of(&self.now, target), self.usual);
        let end = if let Err(why) = &old {
            End::Before(why.kind())
        } else if self.now.names.contains_key(name) {
            End::Before(ErrorKind::AlreadyExists)
        } else {
            self.end()
        };
        self.go_to(end, |moment| {
            let number = moment.files.len();
            moment.files.push(Kept {
                content: Content::Plain(Vec::new()),
                synced: false,
                mode: if matches!(old, Ok(Some(_))) { PRIVATE } else { usual },
            });
            rename_all(moment, |names| _ = names.insert(name.to_owned(), number));
            Ok(Open { number, place: 0 })
        })
    }

    fn take_mode(&mut self, file: &Open, name: &str) -> io::Result<()> {
        self.go(|moment| {
            if let Some(mode) = mode_of(moment, name)? {
                moment.files[file.number].mode = mode;
            }
            Ok(())
        })
    }

    // One that fails leaves a part of the bytes there.
    fn append(&mut self, file: &mut Open, bytes: &[u8]) -> io::Result<()> {
        let end = self.end();
        let part = if matches!(end, End::Well) {
            bytes.len()
        } else {
            self.dice.below(bytes.len() + 1)
        };
        self.go_to(end, |moment| {
            let touched = &mut moment.files[file.number];
            touched.synced = false;
            if let Content::Plain(content) = &mut touched.content {
                content.extend_from_slice(&bytes[..part]);
            }
            Ok(())
        })
    }

    fn sync(&mut self, file: &Open) -> io::Result<()> {
        self.go(|moment| {
            moment.files[file.number].synced = true;
            Ok(())
        })
    }

    fn rename(&mut self, from: &str, to: &str) -> io::Result<()> {
        self.go(|moment| {
            let number = number_of(moment, from)?;
            rename_all(moment, |names| {
                names.remove(from);
                names.insert(to.to_owned(), number);
            });
            Ok(())
        })
    }

    fn remove(&mut self, name: &str) -> io::Result<()> {
        self.go(|moment| {
            number_of(moment, name)?;
            rename_all(moment, |names| _ = names.remove(name));
            Ok(())
        })
    }

    // One that fails leaves it open which names the disk has.
    fn sync_folder(&mut self) -> io::Result<()> {
        let end = match self.end() {
            End::After(kind) => End::Before(kind),
            end => end,
        };
        self.go_to(end, |moment| {
            moment.kept.clear();
            Ok(())
        })
    }

    fn look(&mut self, name: &str) -> io::Result<Option<u64>> {
        self.go(|moment| {
            Ok(match &moment.files[number_of(moment, name)?].content {
                Content::Plain(bytes) => Some(bytes.len() as u64),
                Content::Special => None,
            })
        })
    }

    fn open(&mut self, name: &str) -> io::Result<Open> {
        self.go(|moment| {
            Ok(Open {
                number: number_of(moment, name)?,
                place: 0,
            })
        })
    }

    fn read(&mut self, file: &mut Open, bytes: &mut fallible::Vec<u8>) -> io::Result<usize> {
        let Open { number, place } = *file;
        let count = self.go(|moment| {
            let Content::Plain(content) = &moment.files[number].content else {
                return Err(ErrorKind::InvalidInput.into());
            };
            bytes.extend_from_slice(&content[place..])?;
            Ok(content.len() - place)
        })?;
        file.place += count;
        Ok(count)
    }
}
