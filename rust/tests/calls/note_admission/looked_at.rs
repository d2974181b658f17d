//! How many messages are asked for their fates.
use crate::driven::Admission;
use calls::is;
use char_files::{Anchor, Name, SiteNo, TextNo};
use fallible::{Fail, Global, Vec};
use looks::Looks;
use note_admission::Opening;
use note_entries::{Claim, Digest, Hash, Saying};
use operations::{Kind, Op};

const MESSAGES: u32 = 10_000;

// A digest of one hash, as good as any here.
struct Same;

impl Digest for Same {
    fn of(&self, hashes: &[Hash]) -> Hash {
        hashes[0]
    }
}

const FOUNDER: u16 = 1;
const GUEST: u16 = 2;

fn of_number(number: u16) -> Hash {
    Hash::new(0, u128::from(number))
}

// A message's hash says whose and which it is.
fn hash_of(number: u16, seq: u32) -> Hash {
    Hash::new(u128::from(number), u128::from(seq))
}

// The message of this seq, of one letter, that hangs on another's, which no message of its chain mentioned before.
fn letter(number: u16, seq: u32, stamp: u64, on: Option<u16>) -> Result<Saying, Fail> {
    let none = "no number";
    let cause = match on {
        Some(other) => Anchor::At(Name::new(SiteNo::new(other).ok_or(none)?, seq - 1).ok_or(none)?),
        None => Anchor::Root,
    };
    let kind = Kind::Insert {
        cause,
        at: seq - 1,
        looks: Looks::plain(),
        bytes: Vec::from_slice(Global, b"x")?,
    };
    let site = SiteNo::new(number).ok_or(none)?;
    let text = TextNo::new(1).ok_or(none)?;
    Ok(Saying {
        author: of_number(number),
        hash: hash_of(number, seq),
        before: if seq == 1 { Hash::new(0, 0) } else { hash_of(number, seq - 1) },
        on: on.map(|other| hash_of(other, seq)),
        op: Op::new(text, site, seq, stamp, kind).ok_or("no operation")?,
    })
}

// A note of two authors, of whom nothing came yet.
fn begun() -> Result<Admission, Fail> {
    let opening = Opening { founder: of_number(FOUNDER), number: SiteNo::new(FOUNDER) };
    let mut admission = Admission::new(&Same, opening, Vec::new(Global))?;
    admission.claim(&Same, Claim {
        author: of_number(GUEST),
        site: SiteNo::new(GUEST).ok_or("no number")?,
        rank: Hash::new(0, 0),
    })?;
    Ok(admission)
}

// How many were asked, where all of so many messages count at last.
fn looked_at(admission: &Admission, messages: u32) -> Result<u64, Fail> {
    let text = TextNo::new(1).ok_or("no number")?;
    is(admission.log(text).len() == u64::from(messages), "not all count")?;
    Ok(admission.looked_at(text))
}

#[test]
fn in_order_each_is_asked_once() -> Result<(), Fail> {
    let mut admission = begun()?;
    for seq in 1..=MESSAGES {
        admission.say(&Same, letter(FOUNDER, seq, u64::from(seq), None)?)?;
    }
    is(looked_at(&admission, MESSAGES)? == u64::from(MESSAGES), "some were asked again")
}

// Each letter of two who type by turns hangs on the other's last one.
fn by_turns(number: u16, seq: u32) -> Result<Saying, Fail> {
    if number == FOUNDER {
        return letter(FOUNDER, seq, u64::from(2 * seq - 1), None);
    }
    letter(GUEST, seq, u64::from(2 * seq), Some(FOUNDER))
}

#[test]
fn two_by_turns_are_asked_once_each() -> Result<(), Fail> {
    let mut admission = begun()?;
    for seq in 1..=MESSAGES / 2 {
        admission.say(&Same, by_turns(FOUNDER, seq)?)?;
        admission.say(&Same, by_turns(GUEST, seq)?)?;
    }
    is(looked_at(&admission, MESSAGES)? == u64::from(MESSAGES), "some were asked again")
}

#[test]
fn the_later_author_first_is_linear() -> Result<(), Fail> {
    let mut admission = begun()?;
    for number in [GUEST, FOUNDER] {
        for seq in 1..=MESSAGES / 2 {
            admission.say(&Same, by_turns(number, seq)?)?;
        }
    }
    is(looked_at(&admission, MESSAGES)? <= 3 * u64::from(MESSAGES), "more than three each")
}

#[test]
fn the_last_first_is_asked_once() -> Result<(), Fail> {
    let mut admission = begun()?;
    for seq in (1..=MESSAGES).rev() {
        admission.say(&Same, letter(FOUNDER, seq, u64::from(seq), None)?)?;
    }
    is(looked_at(&admission, MESSAGES)? == u64::from(MESSAGES), "some were asked again")
}
