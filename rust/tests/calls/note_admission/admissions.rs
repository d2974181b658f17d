//! What counts of random notes whose entries come in any order, and more than once.
use crate::driven::Admission;
use crate::note_rows::{hash, saying};
use crate::reading::{Said, fate};
use calls::is;
use char_files::{SiteNo, TextNo};
use fallible::{Fail, Global, Vec};
use note_admission::Opening;
use note_entries::{Claim, Saying};

const ROWS: &str = include_str!("admissions.txt");

fn site(word: &str) -> Result<SiteNo, Fail> {
    Ok(SiteNo::new(word.parse().map_err(|_| "no number")?).ok_or("no number")?)
}

fn text(word: &str) -> Result<TextNo, Fail> {
    Ok(TextNo::new(word.parse().map_err(|_| "no number")?).ok_or("no number")?)
}

fn claim(fields: &[&str]) -> Result<Claim, Fail> {
    let &[author, number, rank] = fields else {
        return Err("a row of another length".into());
    };
    Ok(Claim {
        author: hash(author)?,
        site: site(number)?,
        rank: hash(rank)?,
    })
}

// Whether the messages of these hashes are just those that count of a text, by their operations and the hashes beside them.
fn counts(admission: &Admission, text: TextNo, hashes: &[&str]) -> Result<bool, Fail> {
    let mut told = std::vec::Vec::new();
    for place in 0..admission.log(text).len() {
        told.push(admission.hash(text, place));
    }
    let mut wanted = std::vec::Vec::new();
    for one in hashes {
        wanted.push(hash(one)?);
    }
    told.sort();
    wanted.sort();
    Ok(told == wanted)
}

struct Note {
    digests: Said,
    opening: Opening,
    base: Vec<Saying>,
}

impl Note {
    fn new(founder: &str, number: &str) -> Result<Note, Fail> {
        let number = SiteNo::new(number.parse().map_err(|_| "no number")?);
        Ok(Note {
            digests: Said::default(),
            opening: Opening { founder: hash(founder)?, number },
            base: Vec::new(Global),
        })
    }

    fn begun(&mut self) -> Result<Admission, Fail> {
        let base = std::mem::replace(&mut self.base, Vec::new(Global));
        Admission::new(&self.digests, self.opening, base)
    }
}

#[test]
fn the_same_counts_in_any_order() -> Result<(), Fail> {
    let mut note = Note::new(&"0".repeat(64), "0")?;
    let mut admission = note.begun()?;
    for row in ROWS.lines() {
        let words: std::vec::Vec<&str> = row.split(' ').collect();
        match words.as_slice() {
            ["note", founder, number] => note = Note::new(founder, number)?,
            ["base", fields @ ..] => note.base.push(saying(fields)?)?,
            ["digest", of, "=", hashes @ ..] => note.digests.note(of, hashes)?,
            ["begin"] => admission = note.begun()?,
            ["claim", fields @ ..] => {
                admission.claim(&note.digests, claim(fields)?)?;
            }
            ["say", fields @ ..] => {
                admission.say(&note.digests, saying(fields)?)?;
            }
            ["admitted", number, hashes @ ..] => {
                is(counts(&admission, text(number)?, hashes)?, "other messages count")?;
            }
            ["head", number, chain, of, next] => {
                let told = admission.head(&note.digests, text(number)?, site(chain)?)?;
                is(told == Some((hash(next)?, fate(of)?)), "another fate")?;
            }
            _ => return Err("no row".into()),
        }
    }
    Ok(())
}
