//! Frames of ten sizes, which follow random edits of three sites by changes alone, beside rows drawn from nothing.
use super::slow::{Slow, agrees};
use super::{frame, is};
use char_files::{Buffer, SiteNo, TextNo};
use fallible::{Fail, Global, Vec};
use list_changes::Change;
use looks::{Colour, FontName, Looks, Refusal, Sel};
use text_frames::Frame;
use texts::{Outbox, Replica};

const STEPS: u32 = 2_000;

const SITES: u16 = 3;

// Columns and rows.
const SIZES: [(usize, usize); 10] = [
    (1, 1),
    (1, 9),
    (2, 3),
    (5, 1),
    (7, 4),
    (10, 2),
    (20, 12),
    (40, 30),
    (80, 24),
    (120, 50),
];

struct Site {
    replica: Replica,
    // How many messages were handed in in their turn.
    heard: usize,
}

struct Play {
    outbox: Outbox,
    // The state of a linear congruential generator.
    dice: u64,
    // All that the first site shows.
    slow: Slow,
    // How often a frame had nothing to read, and how often it had.
    still: u32,
    drawn: u32,
    // How many messages were refused, for which there was no place.
    refused: u32,
}

impl Play {
    // A number below this one; 0 below 0.
    fn below(&mut self, end: u64) -> u64 {
        self.dice = self
            .dice
            .wrapping_mul(6_364_136_223_846_793_005)
            .wrapping_add(1_442_695_040_888_963_407);
        (self.dice >> 33).checked_rem(end).unwrap_or(0)
    }

    fn index_below(&mut self, end: usize) -> usize {
        self.below(end as u64) as usize
    }
}

fn types(alloc: Global, site: &mut Site, play: &mut Play) -> Result<(), Fail> {
    let beg = play.index_below(11);
    let end = beg.saturating_add(1).saturating_add(play.index_below(4));
    let letters = b"ab\rc\td\r\x01e\rf\xE9\rg".get(beg..end).ok_or("letters")?;
    let mut buffer = Buffer::new(alloc);
    buffer.push_all(letters, &Looks::plain())?;
    let pos = play.below(site.replica.shown_len().saturating_add(1));
    if site.replica.shown_len() < pos {
        return Err("a position".into());
    }
    is(
        site.replica.insert(pos, &buffer, &mut play.outbox).is_ok(),
        "an insertion",
    )
}

// A stretch of few characters, or of many where there are too many.
fn stretch(site: &Site, play: &mut Play) -> (u64, u64) {
    let len = site.replica.shown_len();
    let most = if len > 250 { 90 } else { 6 };
    let beg = play.below(len.saturating_add(1));
    let end = beg.saturating_add(play.below(most)).min(len);
    (beg.min(end), end)
}

fn deletes(site: &mut Site, play: &mut Play) -> Result<(), Fail> {
    let (beg, end) = stretch(site, play);
    if end < beg || site.replica.shown_len() < end {
        return Err("a stretch".into());
    }
    is(
        site.replica.delete(beg, end, &mut play.outbox).is_ok(),
        "a deletion",
    )
}

fn dresses(site: &mut Site, play: &mut Play) -> Result<(), Fail> {
    let (beg, end) = stretch(site, play);
    let looks = Looks {
        font: FontName::new(b"Mono.Fnt").ok_or("a font")?,
        colour: Colour::new((play.below(4) % 16) as u8).ok_or("a colour")?,
        offset: 0,
    };
    let sel = Sel::new(7).ok_or("a selection")?;
    if end < beg || site.replica.shown_len() < end {
        return Err("a stretch".into());
    }
    let answer = site
        .replica
        .change_looks(beg, end, sel, &looks, &mut play.outbox);
    is(answer.is_ok(), "other looks")
}

fn hand(replica: &mut Replica, outbox: &Outbox, index: usize) -> Result<(), Refusal> {
    if index < outbox.len() {
        replica.take(outbox.message(index))?;
    }
    Ok(())
}

fn count_refused(refused: &mut u32, took: Result<(), Refusal>) {
    if took.is_err() {
        *refused = refused.saturating_add(1);
    }
}

// Hands in messages in their turn.
fn hears(site: &mut Site, play: &mut Play, most: usize) -> Result<(), Fail> {
    for _ in 0..most {
        if site.heard < play.outbox.len() {
            hand(&mut site.replica, &play.outbox, site.heard)?;
            site.heard = site.heard.saturating_add(1);
        }
    }
    Ok(())
}

// Hands in any message, before its turn or again; one for which there is no place is refused.
fn hears_any(site: &mut Site, play: &mut Play) -> Result<(), Fail> {
    let sent = play.outbox.len();
    let index = play.index_below(sent);
    let took = hand(&mut site.replica, &play.outbox, index);
    count_refused(&mut play.refused, took);
    Ok(())
}

fn acts(alloc: Global, site: &mut Site, play: &mut Play) -> Result<(), Fail> {
    match play.below(16) {
        0..=6 => types(alloc, site, play),
        7..=9 => deletes(site, play),
        10 => dresses(site, play),
        11 => {
            let answer = site.replica.restore(&mut play.outbox);
            is(answer.is_ok(), "a restoration")
        }
        12..=14 => hears(site, play, 5),
        _ => hears_any(site, play),
    }
}

// One frame follows the changes.
fn follow(
    frame: &mut Frame,
    replica: &Replica,
    changes: &[Change],
    play: &mut Play,
) -> Result<(), Fail> {
    frame.update(replica, changes);
    if frame.reads() == 0 {
        play.still = play.still.saturating_add(1);
    } else {
        play.drawn = play.drawn.saturating_add(1);
    }
    agrees(frame, replica, &play.slow)
}

// Scrolls a frame, or gives it another height, now and then.
fn turn(frame: &mut Frame, replica: &Replica, play: &mut Play) -> Result<(), Fail> {
    match play.below(40) {
        0 => frame.scroll(replica, play.below(60)),
        1 => {
            let rows = play.index_below(99).saturating_add(1);
            if rows <= 99 {
                frame.resize(replica, rows);
            }
        }
        _ => return Ok(()),
    }
    agrees(frame, replica, &play.slow)
}

// All frames follow what the replica tells.
fn follow_all(site: &mut Site, frames: &mut [Frame], play: &mut Play) -> Result<(), Fail> {
    let changes = site.replica.changes();
    play.slow.read(&site.replica)?;
    for frame in frames {
        follow(frame, &site.replica, &changes, play)?;
        turn(frame, &site.replica, play)?;
    }
    Ok(())
}

fn step(
    alloc: Global,
    sites: &mut [Site],
    frames: &mut [Frame],
    play: &mut Play,
) -> Result<(), Fail> {
    let index = play.index_below(sites.len());
    let site = sites.get_mut(index).ok_or("a site")?;
    acts(alloc, site, play)?;
    let first = sites.first_mut().ok_or("a site")?;
    follow_all(first, frames, play)
}

fn add_sites(alloc: Global, sites: &mut Vec<Site>) -> Result<(), Fail> {
    for number in 1..=SITES {
        let text = TextNo::new(1).ok_or("a text")?;
        let number = SiteNo::new(number).ok_or("a site")?;
        let site = Site {
            replica: Replica::new(alloc, text, number)?,
            heard: 0,
        };
        sites.push(site)?;
    }
    Ok(())
}

fn add_frames(alloc: Global, sites: &[Site], frames: &mut Vec<Frame>) -> Result<(), Fail> {
    let site = sites.first().ok_or("a site")?;
    for (width, rows) in SIZES {
        frames.push(frame(alloc, &site.replica, width, rows)?)?;
    }
    Ok(())
}

fn plays(
    alloc: Global,
    sites: &mut Vec<Site>,
    frames: &mut Vec<Frame>,
    play: &mut Play,
) -> Result<(), Fail> {
    add_sites(alloc, sites)?;
    add_frames(alloc, sites, frames)?;
    for _ in 0..STEPS {
        step(alloc, sites, frames, play)?;
    }
    is(play.still > 2_000, "changes after a frame")?;
    is(play.drawn > 2_000, "changes in a frame")
}

fn new_play(alloc: Global) -> Play {
    Play {
        outbox: Outbox::new(alloc),
        dice: 1,
        slow: Slow::new(alloc),
        still: 0,
        drawn: 0,
        refused: 0,
    }
}

#[test]
fn frames_are_kept_by_changes() -> Result<(), Fail> {
    let alloc = fallible::Global;
    plays(
        alloc,
        &mut Vec::new(alloc),
        &mut Vec::new(alloc),
        &mut new_play(alloc),
    )
}
