//! What is drawn, and how often each case came.
use super::is;
use super::site::Since;
use char_files::Buffer;
use fallible::{Fail, Global};
use list_changes::ChangeKind;
use looks::{Colour, FontName, Looks, Refusal};
use texts::{Outbox, Took};

// Numbers that are the same in each run: a linear congruential generator.
pub(super) struct Dice {
    pub(super) state: u64,
}

impl Dice {
    // A number below this one; 0 below 0.
    pub(super) fn below(&mut self, end: u64) -> u64 {
        self.state = self
            .state
            .wrapping_mul(6_364_136_223_846_793_005)
            .wrapping_add(1_442_695_040_888_963_407);
        (self.state >> 33).checked_rem(end).unwrap_or(0)
    }

    // The same, of an index.
    pub(super) fn index_below(&mut self, end: usize) -> usize {
        self.below(end as u64) as usize
    }

    // The same, of a byte.
    pub(super) fn byte_below(&mut self, end: u8) -> u8 {
        (self.below(u64::from(end)) % 256) as u8
    }

    // A stretch of 1 to 5 characters of a text that has so many, or what is left of it.
    pub(super) fn stretch(&mut self, len: u64) -> (u64, u64) {
        let beg = self.below(len.saturating_add(1));
        let end = beg.saturating_add(1).saturating_add(self.below(5));
        (beg, end.min(len))
    }
}

// Looks of which there are few, so that many characters have them already.
pub(super) fn looks(dice: &mut Dice) -> Result<Looks, Fail> {
    if dice.below(2) == 0 {
        return Ok(Looks::plain());
    }
    Ok(Looks {
        font: FontName::new(b"Mono.Fnt").ok_or("a font")?,
        colour: Colour::new(dice.byte_below(3)).ok_or("a colour")?,
        offset: 0,
    })
}

fn add_letters(buffer: &mut Buffer, dice: &mut Dice) -> Result<(), Fail> {
    let beg = dice.index_below(10);
    let end = beg.saturating_add(1).saturating_add(dice.index_below(3));
    let letters = b"etaoin shrdlu".get(beg..end).ok_or("letters")?;
    buffer.push_all(letters, &looks(dice)?)?;
    Ok(())
}

// Some letters, of one looks or of two.
pub(super) fn letters(alloc: Global, dice: &mut Dice) -> Result<Buffer, Fail> {
    let mut buffer = Buffer::new(alloc);
    add_letters(&mut buffer, dice)?;
    if dice.below(4) == 0 {
        add_letters(&mut buffer, dice)?;
    }
    Ok(buffer)
}

// How often a case came.
pub(super) struct Tally {
    pub(super) repeated: u32,
    pub(super) waited: u32,
    pub(super) drained: u32,
    pub(super) refused: u32,
    pub(super) forgotten: u32,
    pub(super) merged: u32,
    // Nothing was taken in; one operation was that changed what is shown, or left it; many were.
    none: u32,
    one: u32,
    idle_delete: u32,
    idle_restore: u32,
    idle_looks: u32,
    many: u32,
}

pub(super) fn count(number: &mut u32) {
    *number = number.saturating_add(1);
}

impl Tally {
    pub(super) fn new() -> Tally {
        Tally {
            repeated: 0,
            waited: 0,
            drained: 0,
            refused: 0,
            forgotten: 0,
            merged: 0,
            none: 0,
            one: 0,
            idle_delete: 0,
            idle_restore: 0,
            idle_looks: 0,
            many: 0,
        }
    }

    pub(super) fn count_answer(&mut self, took: Result<Took, Refusal>) {
        match took {
            Ok(Took::Taken { drained: 0, .. }) => (),
            Ok(Took::Taken { .. }) => count(&mut self.drained),
            Ok(Took::Repeat) => count(&mut self.repeated),
            Ok(Took::Waits) => count(&mut self.waited),
            Err(_) => count(&mut self.refused),
        }
    }

    pub(super) fn count_told(&mut self, since: Since) {
        match since {
            Since::None => count(&mut self.none),
            Since::One(_, false) => count(&mut self.one),
            Since::One(ChangeKind::Delete, true) => count(&mut self.idle_delete),
            Since::One(ChangeKind::Insert, true) => count(&mut self.idle_restore),
            Since::One(ChangeKind::Replace, true) => count(&mut self.idle_looks),
            Since::Many => count(&mut self.many),
        }
    }

    // Each kind of call came.
    pub(super) fn has_all_calls(&self) -> Result<(), Fail> {
        is(self.repeated != 0, "a repeat")?;
        is(self.waited != 0, "one that waits")?;
        is(self.drained != 0, "one that waited")?;
        is(self.refused != 0, "one that is refused")?;
        is(self.forgotten != 0, "one that is forgotten")?;
        is(self.merged != 0, "a merge")?;
        is(self.many != 0, "many operations")
    }

    // Operations came alone, with changes and without.
    pub(super) fn has_all_single_ones(&self) -> Result<(), Fail> {
        is(self.none != 0, "no operation")?;
        is(self.one != 0, "an operation")?;
        is(self.idle_delete != 0, "a Delete of hidden ones")?;
        is(self.idle_restore != 0, "a Restore of shown ones")?;
        is(self.idle_looks != 0, "the looks that they have")
    }
}

// What a script is played with: the messages that were sent, and after how many calls on a replica changes are
// asked for.
pub(super) struct Play {
    pub(super) outbox: Outbox,
    pub(super) dice: Dice,
    pub(super) tally: Tally,
    pub(super) every: u32,
}
