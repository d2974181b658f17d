//! What is kept of random entries, by rows that a plain program wrote (share/tests/kept_rows.py 77 3).
#[path = "../note_rows.rs"]
mod note_rows;

use calls::is;
use char_files::{SiteNo, TextNo};
use fallible::{Fail, Global};
use note_entries::{Claim, Claimed, Hash, KeptEntries, Said};
use note_rows::{hash, saying};

const ROWS: &str = include_str!("rows.txt");

fn claimed(name: &str) -> Result<Claimed, Fail> {
    Ok(match name {
        "same" => Claimed::Same,
        "first" => Claimed::First,
        "other" => Claimed::Other,
        _ => return Err("no answer to a claim".into()),
    })
}

fn said(name: &str) -> Result<Said, Fail> {
    Ok(match name {
        "repeat" => Said::Repeat,
        "greater" => Said::Greater,
        "first" => Said::First,
        "lesser" => Said::Lesser,
        _ => return Err("no answer to a message".into()),
    })
}

fn number(word: &str) -> Result<u16, Fail> {
    word.parse().map_err(|_| "no number".into())
}

fn site(word: &str) -> Result<SiteNo, Fail> {
    SiteNo::new(number(word)?).ok_or("no site".into())
}

fn one_or_none(hex: &str) -> Result<Option<Hash>, Fail> {
    if hex == "-" {
        return Ok(None);
    }
    Ok(Some(hash(hex)?))
}

// The hash of the message that is kept in a place.
fn least(kept: &KeptEntries, place: &[&str]) -> Result<Option<Hash>, Fail> {
    let &[author, text, of, seq, before] = place else {
        return Err("a place of another length".into());
    };
    let text = TextNo::new(number(text)?).ok_or("no text")?;
    let seq = seq.parse().map_err(|_| "no seq")?;
    let found = kept.least(hash(author)?, text, site(of)?, seq, hash(before)?);
    Ok(found.map(|saying| saying.hash))
}

#[test]
fn the_least_are_kept() -> Result<(), Fail> {
    let mut kept = KeptEntries::new(Global);
    for row in ROWS.lines() {
        let words: std::vec::Vec<&str> = row.split(' ').collect();
        match words.as_slice() {
            ["new"] => kept = KeptEntries::new(Global),
            ["claim", what, author, of, rank] => {
                let told = kept.claim(Claim {
                    author: hash(author)?,
                    site: site(of)?,
                    rank: hash(rank)?,
                })?;
                is(told == claimed(what)?, "another answer to a claim")?;
            }
            ["claimant", author, of] => {
                is(
                    kept.claimant(site(of)?) == one_or_none(author)?,
                    "another claimant",
                )?;
            }
            ["say", what, fields @ ..] => {
                let told = kept.say(saying(fields)?)?;
                is(told == said(what)?, "another answer to a message")?;
            }
            ["least", of, place @ ..] => {
                is(least(&kept, place)? == one_or_none(of)?, "another message")?;
            }
            _ => return Err("no row".into()),
        }
    }
    Ok(())
}
