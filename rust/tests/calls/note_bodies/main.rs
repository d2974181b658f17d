//! What bodies of messages say, by rows of the vectors that share/tests/second_form.mjs made, as they are and changed
//! (share/tests/body_rows.py).
use calls::is;
use char_files::{SiteNo, TextNo};
use fallible::{Fail, Global, Vec};
use looks::Refusal;
use note_bodies::{Head, messages_of};
use note_entries::{Hash, Saying};
use note_hashes::NoteKey;
use std::str::FromStr;

const ROWS: &str = include_str!("rows.txt");

fn bytes(digits: &str) -> Result<[u8; 32], Fail> {
    let mut bytes = [0; 32];
    hex::decode_to_slice(digits, &mut bytes)?;
    Ok(bytes)
}

fn hash(digits: &str) -> Result<Hash, Fail> {
    Ok(Hash::of_bytes(bytes(digits)?))
}

fn number<T: FromStr>(digits: &str) -> Result<T, Fail> {
    digits.parse().map_err(|_| "no number".into())
}

fn head(words: &[&str]) -> Result<Head, Fail> {
    let [author, site, text, first, count, before] = words else {
        return Err("no head".into());
    };
    Ok(Head {
        author: hash(author)?,
        site: SiteNo::new(number(site)?).ok_or("no site")?,
        text: TextNo::new(number(text)?).ok_or("no text")?,
        first: number(first)?,
        count: number(count)?,
        before: hash(before)?,
    })
}

// Whether these are messages of such hashes, each after the one before it.
fn are_those(head: &Head, said: &Vec<Saying>, hashes: &[&str]) -> Result<(), Fail> {
    is(said.len() == hashes.len(), "more messages or fewer")?;
    let mut before = head.before;
    for (one, of) in said.iter().zip(hashes) {
        is(one.before == before && one.author == head.author, "said after another, or by another")?;
        is(one.hash == hash(of)?, "another hash")?;
        before = one.hash;
    }
    Ok(())
}

#[test]
fn bodies_say_what_the_plain_program_says() -> Result<(), Fail> {
    let mut key = NoteKey::new([0; 32]);
    let (mut whole, mut refused) = (0, 0);
    for row in ROWS.lines() {
        let words: std::vec::Vec<&str> = row.split(' ').collect();
        match words.as_slice() {
            ["note", of] => key = NoteKey::new(bytes(of)?),
            ["body", author, site, text, first, count, before, body, "=", hashes @ ..] => {
                let head = head(&[author, site, text, first, count, before])?;
                match messages_of(Global, &key, &head, &hex::decode(Global, body)?) {
                    Ok(said) => {
                        are_those(&head, &said, hashes)?;
                        whole += 1;
                    }
                    Err(why) => {
                        is(why == Refusal::Malformed && hashes.is_empty(), "refused")?;
                        refused += 1;
                    }
                }
            }
            _ => return Err("no row".into()),
        }
    }
    is(whole > 20 && refused > 100, "few rows")
}
