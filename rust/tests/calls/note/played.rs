//! Rows of random notes, played through a `Note` and through what is admitted of its texts.
use crate::driven::Admission;
use crate::note_rows::hash;
use calls::is;
use char_files::{SiteNo, TextNo};
use fallible::{Fail, Global, Vec};
use looks::{Colour, Looks};
use note::Note;
use note_admission::{Fate, Opening};
use note_entries::{Claim, Hash, Saying};
use note_hashes::{BaseKey, NoteKey};
use texts::Replica;

/// How much was played, and how often what was admitted began anew.
#[derive(Clone, Copy, Debug, Default)]
pub struct Tally {
    pub sets: u64,
    pub messages: u64,
    pub claims: u64,
    pub counted: u64,
    pub shown: u64,
    pub anew_by_messages: u64,
    pub anew_by_claims: u64,
    /// Next messages that are wrong, held back, lack characters, build on others.
    pub nexts: [u64; 4],
}

// What a note begins with.
struct Begun {
    hashing: [u8; 32],
    base_key: BaseKey,
    opening: Opening,
}

/// What the rows since a note's first one said.
pub struct Played {
    begun: Begun,
    key: NoteKey,
    // The first of them are the base's.
    sayings: std::vec::Vec<Saying>,
    base_len: usize,
    claims: std::vec::Vec<Claim>,
    note: Note,
    admission: Admission,
    pub tally: Tally,
}

fn bytes(digits: &str) -> Result<[u8; 32], Fail> {
    let mut bytes = [0; 32];
    hex::decode_to_slice(digits, &mut bytes)?;
    Ok(bytes)
}

fn number<N: std::str::FromStr>(word: &str) -> Result<N, Fail> {
    word.parse().map_err(|_| "no number".into())
}

fn site(word: &str) -> Result<SiteNo, Fail> {
    SiteNo::new(number(word)?).ok_or("no site".into())
}

fn text(word: &str) -> Result<TextNo, Fail> {
    TextNo::new(number(word)?).ok_or("no text".into())
}

fn op(message: &str) -> Result<operations::Op, Fail> {
    Ok(operations::decode(Global, &hex::decode(Global, message)?)?)
}

fn copy(saying: &Saying) -> Result<Saying, Fail> {
    Ok(Saying {
        author: saying.author,
        hash: saying.hash,
        before: saying.before,
        on: saying.on,
        op: saying.op.copy()?,
    })
}

fn copies(sayings: &[Saying]) -> Result<Vec<Saying>, Fail> {
    let mut all = Vec::new(Global);
    for saying in sayings {
        all.push(copy(saying)?)?;
    }
    Ok(all)
}

impl Begun {
    fn new(fields: &[&str]) -> Result<Begun, Fail> {
        let &[hashing, base_key, founder, number_of] = fields else {
            return Err("a row of another length".into());
        };
        Ok(Begun {
            hashing: bytes(hashing)?,
            base_key: BaseKey::new(bytes(base_key)?),
            opening: Opening {
                founder: hash(founder)?,
                number: SiteNo::new(number(number_of)?),
            },
        })
    }

    fn key(&self) -> NoteKey {
        NoteKey::new(self.hashing)
    }

    fn note(&self, base: &[Saying], reader: SiteNo) -> Result<Note, Fail> {
        Ok(Note::new(
            Global,
            self.key(),
            self.opening,
            copies(base)?,
            reader,
        )?)
    }

    fn admission(&self, base: &[Saying]) -> Result<Admission, Fail> {
        Admission::new(&self.key(), self.opening, copies(base)?)
    }
}

// Characters as rows spell them.
fn shown(replica: &Replica) -> std::string::String {
    let mut words = std::vec::Vec::new();
    for char in replica.shown() {
        let plain = Looks::plain();
        let colour = (0..16).find(|colour| Colour::new(*colour) == Some(char.looks.colour));
        let is_plain = (&char.looks.font, char.looks.offset) == (&plain.font, plain.offset);
        let (name, colour) = (char.name, if is_plain { colour } else { None });
        words.push(format!(
            "{}.{}.{}.{}",
            name.site().get(),
            name.off(),
            char.byte,
            colour.map_or("another".to_string(), |colour| colour.to_string())
        ));
    }
    words.join(" ")
}

fn fate(name: &str) -> Result<(Fate, usize), Fail> {
    Ok(match name {
        "wrong" => (Fate::Wrong, 0),
        "held" => (Fate::HeldBack, 1),
        "lacks" => (Fate::Lacks, 2),
        "others" => (Fate::OnOthers, 3),
        _ => return Err("no fate".into()),
    })
}

impl Played {
    /// Nothing came yet.
    pub fn new() -> Result<Played, Fail> {
        let begun = Begun::new(&["0".repeat(64).as_str(); 4].map(|word| word))?;
        Played::of(begun, Tally::default())
    }

    fn of(begun: Begun, tally: Tally) -> Result<Played, Fail> {
        Ok(Played {
            key: begun.key(),
            note: begun.note(&[], SiteNo::new(1).ok_or("no site")?)?,
            admission: begun.admission(&[])?,
            sayings: std::vec::Vec::new(),
            base_len: 0,
            claims: std::vec::Vec::new(),
            begun,
            tally,
        })
    }

    // The hash that a row names: zeros, that of the message of a number, or one that is spelled.
    fn hash(&self, word: &str) -> Result<Hash, Fail> {
        match word {
            "-" => Ok(Hash::new(0, 0)),
            _ if word.len() == 64 => hash(word),
            _ => Ok(self.saying(word)?.hash),
        }
    }

    fn saying(&self, word: &str) -> Result<&Saying, Fail> {
        self.sayings
            .get(number::<usize>(word)?)
            .ok_or("no message".into())
    }

    fn copied(&self, fields: &[&str]) -> Result<Saying, Fail> {
        let &[author, before, message] = fields else {
            return Err("a row of another length".into());
        };
        let before = self.hash(before)?;
        Ok(self
            .begun
            .base_key
            .copied(Global, hash(author)?, before, op(message)?)?)
    }

    fn said(&self, fields: &[&str]) -> Result<Saying, Fail> {
        let &[author, before, on, message] = fields else {
            return Err("a row of another length".into());
        };
        let on = if on == "-" { None } else { Some(hash(on)?) };
        let before = self.hash(before)?;
        Ok(self
            .key
            .saying(Global, hash(author)?, before, op(message)?, on)?)
    }

    fn begin(&mut self, reader: &str) -> Result<(), Fail> {
        let base = &self.sayings[..self.base_len];
        self.note = self.begun.note(base, site(reader)?)?;
        self.admission = self.begun.admission(base)?;
        self.tally.sets += 1;
        Ok(())
    }

    fn say(&mut self, words: &[&str]) -> Result<(), Fail> {
        for word in words {
            self.note.say(copy(self.saying(word)?)?)?;
            let other = copy(self.saying(word)?)?;
            self.tally.anew_by_messages += u64::from(self.admission.say(&self.key, other)?);
            self.tally.messages += 1;
        }
        Ok(self.note.update()?)
    }

    fn claim(&mut self, word: &str) -> Result<(), Fail> {
        let claim = *self.claims.get(number::<usize>(word)?).ok_or("no claim")?;
        self.note.claim(claim)?;
        self.note.update()?;
        self.tally.anew_by_claims += self.admission.claim(&self.key, claim)?;
        self.tally.claims += 1;
        Ok(())
    }

    // Just the messages of these numbers count, by their hashes, each beside the operation that it says.
    fn counts(&mut self, of: TextNo, words: &[&str]) -> Result<(), Fail> {
        let (mut told, mut wanted) = (std::vec::Vec::new(), std::vec::Vec::new());
        for place in 0..self.admission.log(of).len() {
            let (site, seq) = self.admission.log(of).identity(place);
            told.push((self.admission.hash(of, place), site.get(), seq));
        }
        for word in words {
            let one = self.saying(word)?;
            wanted.push((one.hash, one.op.site().get(), one.op.seq()));
        }
        told.sort();
        wanted.sort();
        self.tally.counted += words.len() as u64;
        is(told == wanted, "other messages count")
    }

    fn shows(&mut self, of: TextNo, words: &[&str]) -> Result<(), Fail> {
        let replica = self.note.text(of).ok_or("there is no such text")?;
        self.tally.shown += words.len() as u64;
        is(replica.text() == of, "another text")?;
        is(shown(replica) == words.join(" "), "something else is shown")
    }

    fn comes_next(
        &mut self,
        of: TextNo,
        chain: SiteNo,
        name: &str,
        next: &str,
    ) -> Result<(), Fail> {
        let told = self.admission.head(&self.key, of, chain)?;
        let (wanted, index) = fate(name)?;
        self.tally.nexts[index] += 1;
        is(
            told == Some((self.saying(next)?.hash, wanted)),
            "another fate",
        )
    }

    /// Plays a row.
    pub fn play(&mut self, row: &str) -> Result<(), Fail> {
        let words: std::vec::Vec<&str> = row.split(' ').collect();
        match words.as_slice() {
            ["note", fields @ ..] => *self = Played::of(Begun::new(fields)?, self.tally)?,
            ["base", fields @ ..] => {
                self.sayings.push(self.copied(fields)?);
                self.base_len = self.sayings.len();
            }
            ["message", fields @ ..] => self.sayings.push(self.said(fields)?),
            ["claim", author, of, rank] => self.claims.push(Claim {
                author: hash(author)?,
                site: site(of)?,
                rank: hash(rank)?,
            }),
            ["begin", reader] => self.begin(reader)?,
            ["says", some @ ..] => self.say(some)?,
            ["claims", one] => self.claim(one)?,
            ["counts", of, some @ ..] => self.counts(text(of)?, some)?,
            ["text", of, some @ ..] => self.shows(text(of)?, some)?,
            ["next", of, chain, name, one] => {
                self.comes_next(text(of)?, site(chain)?, name, one)?
            }
            _ => return Err("no row".into()),
        }
        Ok(())
    }
}
