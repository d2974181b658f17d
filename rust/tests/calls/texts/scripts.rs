//! Random scripts of four sites, in which each call is one that tells changes or could tell some.
use super::is;
use super::played::{Dice, Play, Tally, count, letters, looks};
use super::site::{Site, add_sites, ask, hand};
use char_files::Buffer;
use fallible::{Fail, Global, Vec};
use looks::{Looks, Sel};
use texts::{Outbox, Took};

const SITES: u16 = 4;

const STEPS: u32 = 400;

// So many scripts are played.
const SCRIPTS: u64 = 8;

// After a call on its replica a site asks for changes, if it is its turn.
fn called(site: &mut Site, play: &mut Play) -> Result<(), Fail> {
    count(&mut site.calls);
    if site.calls.checked_rem(play.every) == Some(0) {
        let since = ask(site)?;
        play.tally.count_told(since);
    }
    Ok(())
}

fn inserts(site: &mut Site, pos: u64, letters: &Buffer, outbox: &mut Outbox) -> Result<(), Fail> {
    if site.replica.shown_len() < pos {
        return Err("a position".into());
    }
    let answer = site.replica.insert(pos, letters, outbox);
    is(answer.is_ok(), "an Insert")
}

fn types(alloc: Global, site: &mut Site, play: &mut Play) -> Result<(), Fail> {
    let letters = letters(alloc, &mut play.dice)?;
    let end = site.replica.shown_len().saturating_add(1);
    let pos = play.dice.below(end);
    inserts(site, pos, &letters, &mut play.outbox)
}

fn deletes(site: &mut Site, play: &mut Play) -> Result<(), Fail> {
    let (beg, end) = play.dice.stretch(site.replica.shown_len());
    if end < beg || site.replica.shown_len() < end {
        return Err("a stretch".into());
    }
    let answer = site.replica.delete(beg, end, &mut play.outbox);
    is(answer.is_ok(), "a Delete")
}

fn gives(site: &mut Site, play: &mut Play, sel: Sel, looks: &Looks) -> Result<(), Fail> {
    let (beg, end) = play.dice.stretch(site.replica.shown_len());
    if end < beg || site.replica.shown_len() < end {
        return Err("a stretch".into());
    }
    let outbox = &mut play.outbox;
    let answer = site.replica.change_looks(beg, end, sel, looks, outbox);
    is(answer.is_ok(), "a ChangeLooks")
}

fn dresses(site: &mut Site, play: &mut Play) -> Result<(), Fail> {
    let bits = play.dice.byte_below(7).saturating_add(1);
    let sel = Sel::new(bits).ok_or("a selection")?;
    let looks = looks(&mut play.dice)?;
    gives(site, play, sel, &looks)
}

// Makes an edit of any kind.
fn edits(alloc: Global, site: &mut Site, play: &mut Play) -> Result<(), Fail> {
    match play.dice.below(20) {
        0..=8 => types(alloc, site, play)?,
        9..=12 => deletes(site, play)?,
        13..=16 => dresses(site, play)?,
        _ => {
            let answer = site.replica.restore(&mut play.outbox);
            is(answer.is_ok(), "a Restore")?;
        }
    }
    called(site, play)
}

// Hands in the next message in turn, if there is one: all of its causes are held.
fn hears_next(site: &mut Site, play: &mut Play) -> Result<(), Fail> {
    if play.outbox.len() <= site.heard {
        return Ok(());
    }
    let took = hand(&mut site.replica, &play.outbox, site.heard);
    is(
        matches!(took, Ok(Took::Taken { .. } | Took::Repeat)),
        "taken in",
    )?;
    site.heard = site.heard.saturating_add(1);
    play.tally.count_answer(took);
    called(site, play)
}

fn catches_up(site: &mut Site, play: &mut Play, most: usize) -> Result<(), Fail> {
    for _ in 0..most {
        hears_next(site, play)?;
    }
    Ok(())
}

// Hands in any message, before its turn or again.
fn hears_any(site: &mut Site, play: &mut Play) -> Result<(), Fail> {
    let index = play.dice.index_below(play.outbox.len());
    if play.outbox.len() <= index {
        return Ok(());
    }
    let took = hand(&mut site.replica, &play.outbox, index);
    play.tally.count_answer(took);
    called(site, play)
}

// The bytes with one bit of the last turned.
fn turn_a_bit(bytes: &mut [u8]) -> Result<(), Fail> {
    let last = bytes.last_mut().ok_or("a byte")?;
    *last ^= 1;
    Ok(())
}

fn spoilt(alloc: Global, outbox: &Outbox, index: usize) -> Result<Vec<u8>, Fail> {
    if outbox.len() <= index {
        return Err("a message".into());
    }
    let mut bytes = Vec::from_slice(alloc, outbox.message(index))?;
    turn_a_bit(&mut bytes)?;
    Ok(bytes)
}

// Hands in another message under the identity of one that is held, which is refused.
fn hears_a_spoilt_one(alloc: Global, site: &mut Site, play: &mut Play) -> Result<(), Fail> {
    if site.heard == 0 {
        return Ok(());
    }
    let index = play.dice.index_below(site.heard);
    let bytes = spoilt(alloc, &play.outbox, index)?;
    let took = site.replica.take(&bytes);
    is(took.is_err(), "refused")?;
    play.tally.count_answer(took);
    called(site, play)
}

fn forgets(site: &mut Site, play: &mut Play) -> Result<(), Fail> {
    if site.replica.forget_waiting() != 0 {
        count(&mut play.tally.forgotten);
    }
    called(site, play)
}

// A step of one site alone.
fn goes_on(alloc: Global, site: &mut Site, play: &mut Play) -> Result<(), Fail> {
    match play.dice.below(40) {
        0..=19 => edits(alloc, site, play),
        20..=30 => catches_up(site, play, 6),
        31..=36 => hears_any(site, play),
        37 | 38 => hears_a_spoilt_one(alloc, site, play),
        _ => forgets(site, play),
    }
}

// Takes over what another site has, and what waited for it.
fn takes_over(site: &mut Site, other: &Site, play: &mut Play) -> Result<(), Fail> {
    let merged = site.replica.merge_from(&other.replica);
    is(merged.is_ok(), "a merge")?;
    if merged != Ok(0) {
        count(&mut play.tally.merged);
    }
    called(site, play)?;
    is(!site.replica.settle().stopped, "all leave that can")?;
    called(site, play)
}

// Two of the sites, if they are two, merge one way.
fn merges(sites: &mut [Site], play: &mut Play) -> Result<(), Fail> {
    let one = play.dice.index_below(sites.len());
    let other = play.dice.index_below(sites.len());
    let cut = one.max(other);
    if one == other || sites.len() <= cut {
        return Ok(());
    }
    let (before, after) = sites.split_at_mut(cut);
    let first = before.get_mut(one.min(other)).ok_or("a site")?;
    let second = after.first_mut().ok_or("a site")?;
    if one < other {
        takes_over(first, second, play)
    } else {
        takes_over(second, first, play)
    }
}

fn step(alloc: Global, sites: &mut [Site], play: &mut Play, late: bool) -> Result<(), Fail> {
    if late && play.dice.below(20) == 0 {
        return merges(sites, play);
    }
    let index = play.dice.index_below(sites.len());
    let site = sites.get_mut(index).ok_or("a site")?;
    goes_on(alloc, site, play)
}

// All messages come to all, and all changes are told.
fn all_come(sites: &mut [Site], play: &mut Play) -> Result<(), Fail> {
    for site in sites {
        let all = play.outbox.len();
        catches_up(site, play, all)?;
        ask(site)?;
        is(site.replica.waiting() == 0, "none waits")?;
    }
    Ok(())
}

// In the second half of a script there are merges, too.
fn plays(alloc: Global, sites: &mut [Site], play: &mut Play) -> Result<(), Fail> {
    for round in 0..STEPS {
        step(alloc, sites, play, STEPS / 2 <= round)?;
    }
    all_come(sites, play)
}

fn begins(alloc: Global, sites: &mut Vec<Site>, play: &mut Play) -> Result<(), Fail> {
    add_sites(alloc, sites, SITES)?;
    plays(alloc, sites, play)
}

// Plays each script, from a seed of its own.
fn plays_all(alloc: Global, play: &mut Play) -> Result<(), Fail> {
    for seed in 1..=SCRIPTS {
        play.dice.state = seed;
        play.outbox = Outbox::new(alloc);
        begins(alloc, &mut Vec::new(alloc), play)?;
    }
    play.tally.has_all_calls()
}

fn new_play(alloc: Global, every: u32) -> Play {
    Play {
        outbox: Outbox::new(alloc),
        dice: Dice { state: 0 },
        tally: Tally::new(),
        every,
    }
}

fn asks_always(alloc: Global, play: &mut Play) -> Result<(), Fail> {
    plays_all(alloc, play)?;
    play.tally.has_all_single_ones()
}

// Asked for after each call, changes lead a plain list to what is shown.
#[test]
fn changes_lead_to_what_is_shown() -> Result<(), Fail> {
    asks_always(fallible::Global, &mut new_play(fallible::Global, 1))
}

// They do, too, where they are asked for after each tenth call alone.
#[test]
fn changes_gather() -> Result<(), Fail> {
    plays_all(fallible::Global, &mut new_play(fallible::Global, 10))
}
