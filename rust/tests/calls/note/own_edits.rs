//! Two people with a note edit by turns at random, and their entries reach each other in any order and more than once: both texts are the same
//! in the end.
use calls::is;
use char_files::{Buffer, SiteNo, TextNo};
use fallible::{Fail, Global, Vec};
use looks::{Looks, Sel};
use note::{Head, Note, OwnEdit, OwnEntry};
use note_admission::Opening;
use note_bodies::messages_of;
use note_entries::{Claim, Hash};
use note_hashes::NoteKey;
use operations::NameRange;
use texts::{ByNames, Outbox, Replica};

const STEPS: u32 = 600;
const KEY: [u8; 32] = [7; 32];

struct Random(u32);

impl Random {
    fn below(&mut self, bound: u64) -> u64 {
        self.0 ^= self.0 << 13;
        self.0 ^= self.0 >> 17;
        self.0 ^= self.0 << 5;
        u64::from(self.0) % bound
    }
}

// An entry, as an opener gives it.
struct Entry {
    head: Head,
    body: Vec<u8>,
}

struct Person {
    author: Hash,
    site: SiteNo,
    note: Note,
    made: std::vec::Vec<Entry>,
}

fn text() -> Result<TextNo, Fail> {
    Ok(TextNo::new(1).ok_or("no text")?)
}

impl Person {
    fn new(author: u128, number: u16) -> Result<Person, Fail> {
        let author = Hash::new(0, author);
        let site = SiteNo::new(number).ok_or("no site")?;
        let opening = Opening {
            founder: Hash::new(0, 1),
            number: SiteNo::new(1),
        };
        let mut note = Note::new(Global, NoteKey::new(KEY), opening, Vec::new(Global), site)?;
        note.claim(Claim {
            author: Hash::new(0, 2),
            site: SiteNo::new(2).ok_or("no site")?,
            rank: Hash::new(0, 1),
        })?;
        note.update()?;
        Ok(Person {
            author,
            site,
            note,
            made: std::vec::Vec::new(),
        })
    }

    fn replica(&self) -> Result<&Replica, Fail> {
        Ok(self.note.text(text()?).ok_or("no text")?)
    }

    // An edit that fits the text.
    fn some_edit(&self, random: &mut Random) -> Result<OwnEdit, Fail> {
        let len = self.replica()?.shown_len();
        let (one, other) = (random.below(len + 1), random.below(len + 1));
        let (beg, end) = (one.min(other), one.max(other).min(one.min(other) + 5));
        Ok(match random.below(6) {
            0 => OwnEdit::Delete { beg, end },
            1 => OwnEdit::ChangeLooks {
                beg,
                end,
                sel: Sel::new(2).ok_or("no selection")?,
                looks: Looks {
                    offset: -3,
                    ..Looks::plain()
                },
            },
            2 if self.replica()?.front(self.site) > 0 => {
                let mut names = Vec::new(Global);
                names.push(NameRange::new(self.site, 0, 1))?;
                let what = if random.below(2) == 0 { ByNames::Delete } else { ByNames::Restore };
                OwnEdit::ByNames { what, names }
            }
            _ => {
                let mut buffer = Buffer::new(Global);
                buffer.push_all(b"words"[..=random.below(5) as usize].as_ref(), &Looks::plain())?;
                OwnEdit::Insert { pos: one, buffer }
            }
        })
    }

    // Makes some edits, and then entries of their messages, if there are any, which count at once.
    fn edit(&mut self, random: &mut Random) -> Result<(), Fail> {
        for _ in 0..=random.below(4) {
            let edit = self.some_edit(random)?;
            self.note.edit(text()?, &edit, &mut Outbox::new(Global))?;
        }
        let (shown, done) = (shown(self.replica()?), self.replica()?.taken_len());
        for OwnEntry { head, body } in self.note.own_entries(text()?, self.author)? {
            let entry = Entry { head, body };
            self.take(&entry)?;
            self.made.push(entry);
        }
        self.note.update()?;
        is(self.replica()?.taken_len() == done, "its own edits don't count")?;
        is(self::shown(self.replica()?) == shown, "they show something else")
    }

    fn take(&mut self, entry: &Entry) -> Result<(), Fail> {
        Ok(self.note.add(Global, &entry.head, &entry.body)?)
    }
}

fn shown(replica: &Replica) -> std::vec::Vec<(u8, Looks)> {
    (0..replica.shown_len()).map(|pos| replica.attributes(pos)).collect()
}

#[test]
fn own_edits_reach_each_other() -> Result<(), Fail> {
    for seed in 1..=20 {
        let mut random = Random(seed);
        let mut people = [Person::new(1, 1)?, Person::new(2, 2)?];
        for _ in 0..STEPS {
            let [one, other] = &mut people;
            let (one, other) = if random.below(2) == 0 { (one, other) } else { (other, one) };
            if random.below(3) == 0 && !other.made.is_empty() {
                let at = random.below(other.made.len() as u64) as usize;
                one.take(&other.made[at])?;
                one.note.update()?;
            } else {
                one.edit(&mut random)?;
            }
        }
        let [one, other] = &mut people;
        for entry in one.made.iter().rev() {
            other.take(entry)?;
        }
        other.made.iter().try_for_each(|entry| one.take(entry))?;
        one.note.update()?;
        other.note.update()?;
        is(one.replica()?.taken_len() == other.replica()?.taken_len(), "one took in more")?;
        is(shown(one.replica()?) == shown(other.replica()?), "they show something else")?;
        is(one.replica()?.waiting() == 0 && !shown(one.replica()?).is_empty(), "nothing is shown, or something waits")?;
    }
    Ok(())
}

#[test]
fn what_is_no_body_comes_not() -> Result<(), Fail> {
    let (mut one, mut other) = (Person::new(1, 1)?, Person::new(2, 2)?);
    let mut random = Random(1);
    while one.made.is_empty() {
        one.edit(&mut random)?;
    }
    let entry = &mut one.made[0];
    is(messages_of(Global, &NoteKey::new(KEY), &entry.head, &entry.body).is_ok(), "it is no body")?;
    entry.head.count += 1;
    is(messages_of(Global, &NoteKey::new(KEY), &entry.head, &entry.body).is_err(), "it counts more messages than it has")?;
    is(other.take(entry).is_err(), "it was taken")?;
    other.note.update()?;
    is(other.replica()?.taken_len() == 0, "it came")
}
