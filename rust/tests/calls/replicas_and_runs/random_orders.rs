//! Messages of four sites, handed to a fifth in many orders, with repeats and merges.
use super::is;
use super::replicas::{TAKEN, replica_of, site};
use char_files::{Buffer, Char};
use fallible::{Fail, Global, Vec};
use looks::{Colour, FontName, Looks, Refusal, Sel};
use operations::{Op, decode};
use texts::{Outbox, Replica, Took};
use tree_order::{is_good, slow_shown};

const SITES: u16 = 4;

const EDITS: u32 = 300;

// In so many orders half of the messages come, and then merges; in as many all of them.
const ORDERS: usize = 25;

// In most orders a message comes at most so many places from its turn, so that no room is full.
const WINDOW: usize = 50;

// Numbers that are the same in each run: a linear congruential generator.
struct Dice {
    state: u64,
}

impl Dice {
    // A number below this one; 0 below 0.
    fn below(&mut self, end: u64) -> u64 {
        self.state = self
            .state
            .wrapping_mul(6_364_136_223_846_793_005)
            .wrapping_add(1_442_695_040_888_963_407);
        (self.state >> 33).checked_rem(end).unwrap_or(0)
    }

    // The same, of an index.
    fn index_below(&mut self, end: usize) -> usize {
        self.below(end as u64) as usize
    }

    // The same, of a byte.
    fn byte_below(&mut self, end: u8) -> u8 {
        (self.below(u64::from(end)) % 256) as u8
    }

    // A stretch of 1 to 5 characters of a text that has so many, or what is left of it.
    fn stretch(&mut self, len: u64) -> (u64, u64) {
        let beg = self.below(len.saturating_add(1));
        let end = beg.saturating_add(1).saturating_add(self.below(5));
        (beg, end.min(len))
    }
}

// Some letters, in one of two looks.
fn letters(alloc: Global, dice: &mut Dice) -> Result<Buffer, Fail> {
    let beg = dice.index_below(10);
    let end = beg.saturating_add(1).saturating_add(dice.index_below(3));
    let letters = b"etaoin shrdlu".get(beg..end).ok_or("letters")?;
    let looks = if dice.below(4) == 0 {
        dressed(dice)?
    } else {
        Looks::plain()
    };
    let mut buffer = Buffer::new(alloc);
    buffer.push_all(letters, &looks)?;
    Ok(buffer)
}

const OFFSETS: [i8; 4] = [0, -128, 127, -3];

fn dressed(dice: &mut Dice) -> Result<Looks, Fail> {
    Ok(Looks {
        font: FontName::new(b"Mono.Fnt").ok_or("a font")?,
        colour: Colour::new(dice.byte_below(16)).ok_or("a colour")?,
        offset: *OFFSETS.get(dice.index_below(4)).ok_or("an offset")?,
    })
}

fn inserts(
    replica: &mut Replica,
    pos: u64,
    letters: &Buffer,
    outbox: &mut Outbox,
) -> Result<(), Fail> {
    if replica.shown_len() < pos {
        return Err("a position".into());
    }
    is(replica.insert(pos, letters, outbox) == Ok(1), "an Insert")
}

fn types(
    alloc: Global,
    dice: &mut Dice,
    replica: &mut Replica,
    outbox: &mut Outbox,
) -> Result<(), Fail> {
    let letters = letters(alloc, dice)?;
    let pos = dice.below(replica.shown_len().saturating_add(1));
    inserts(replica, pos, &letters, outbox)
}

fn deletes(dice: &mut Dice, replica: &mut Replica, outbox: &mut Outbox) -> Result<(), Fail> {
    let (beg, end) = dice.stretch(replica.shown_len());
    if end < beg || replica.shown_len() < end {
        return Err("a stretch".into());
    }
    is(replica.delete(beg, end, outbox).is_ok(), "a Delete")
}

fn dresses(dice: &mut Dice, replica: &mut Replica, outbox: &mut Outbox) -> Result<(), Fail> {
    let sel = Sel::new(dice.byte_below(7).saturating_add(1)).ok_or("a selection")?;
    let looks = dressed(dice)?;
    let (beg, end) = dice.stretch(replica.shown_len());
    if end < beg || replica.shown_len() < end {
        return Err("a stretch".into());
    }
    is(
        replica.change_looks(beg, end, sel, &looks, outbox).is_ok(),
        "a ChangeLooks",
    )
}

// Makes an edit of any kind.
fn edits(
    alloc: Global,
    dice: &mut Dice,
    replica: &mut Replica,
    outbox: &mut Outbox,
) -> Result<(), Fail> {
    match dice.below(10) {
        0..=4 => types(alloc, dice, replica, outbox),
        5 | 6 => deletes(dice, replica, outbox),
        7 | 8 => dresses(dice, replica, outbox),
        _ => is(replica.restore(outbox).is_ok(), "a Restore"),
    }
}

// Hands a message in, which there is.
fn hand(replica: &mut Replica, outbox: &Outbox, index: usize) -> Result<Took, Refusal> {
    if outbox.len() <= index {
        return Err(Refusal::BadEvent);
    }
    replica.take(outbox.message(index))
}

// Takes in a stretch of the messages, in turn: all of their causes are here, or they are own ones.
fn takes_all(replica: &mut Replica, outbox: &Outbox, beg: usize, end: usize) -> Result<(), Fail> {
    for index in beg..end {
        let took = hand(replica, outbox, index);
        is(took == TAKEN || took == Ok(Took::Repeat), "taken in")?;
    }
    Ok(())
}

// Takes in some of the messages that were sent since, in turn; or none, most of the time. `seen` counts those
// that it went through.
fn catches_up(
    dice: &mut Dice,
    replica: &mut Replica,
    seen: &mut usize,
    outbox: &Outbox,
) -> Result<(), Fail> {
    if dice.below(4) != 0 {
        return Ok(());
    }
    let left = outbox.len().saturating_sub(*seen);
    let end = seen.saturating_add(dice.index_below(left.saturating_add(1)));
    takes_all(replica, outbox, *seen, end)?;
    *seen = end;
    Ok(())
}

// One of the writers catches up and makes an edit.
fn writes(
    alloc: Global,
    dice: &mut Dice,
    writers: &mut [Replica],
    seen: &mut [usize],
    outbox: &mut Outbox,
) -> Result<(), Fail> {
    let index = dice.index_below(writers.len());
    let writer = writers.get_mut(index).ok_or("a writer")?;
    let seen = seen.get_mut(index).ok_or("a writer")?;
    catches_up(dice, writer, seen, outbox)?;
    edits(alloc, dice, writer, outbox)
}

fn all_write(
    alloc: Global,
    dice: &mut Dice,
    writers: &mut [Replica],
    outbox: &mut Outbox,
) -> Result<(), Fail> {
    let mut seen = [0; SITES as usize];
    for _ in 0..EDITS {
        writes(alloc, dice, writers, &mut seen, outbox)?;
    }
    Ok(())
}

fn add_operations(alloc: Global, ops: &mut Vec<Op>, outbox: &Outbox) -> Result<(), Fail> {
    for index in 0..outbox.len() {
        ops.push(decode(alloc, outbox.message(index))?)?;
    }
    Ok(())
}

// What the operations show, by definition. They are added to these.
fn defined(alloc: Global, ops: &mut Vec<Op>, outbox: &Outbox) -> Result<Vec<Char>, Fail> {
    add_operations(alloc, ops, outbox)?;
    if !is_good(alloc, ops)? {
        return Err("a good set".into());
    }
    Ok(slow_shown(alloc, ops)?)
}

fn shows(replica: &Replica, want: &[Char]) -> Result<(), Fail> {
    let mut shown = replica.shown();
    for char in want {
        let next = shown.next().ok_or("a character")?;
        is(next.name == char.name && next.byte == char.byte, "a name")?;
        is(next.looks == char.looks, "its looks")?;
    }
    is(shown.next().is_none(), "all of them")?;
    is(
        replica.shown_len() == want.len() as u64,
        "how much is shown",
    )
}

// How many of the messages were taken in.
fn taken_in(replica: &Replica) -> Result<u64, Fail> {
    let mut count: u64 = 0;
    for number in 1..=SITES {
        count = count.saturating_add(u64::from(replica.front(site(number)?)));
    }
    Ok(count)
}

fn shuffle(dice: &mut Dice, order: &mut [usize]) {
    for index in 0..order.len() {
        let other = dice.index_below(order.len());
        if other < order.len() {
            order.swap(index, other);
        }
    }
}

// Shuffles each stretch of so many by itself.
fn shuffle_within(dice: &mut Dice, order: &mut [usize], window: usize) {
    for round in 0..order.len() {
        let beg = round.saturating_mul(window);
        if order.len() <= beg {
            return;
        }
        let end = beg.saturating_add(window).min(order.len());
        shuffle(dice, &mut order[beg..end]);
    }
}

// So many messages by their numbers, some of them twice.
fn add_numbers(dice: &mut Dice, order: &mut Vec<usize>, count: usize) -> Result<(), Fail> {
    for index in 0..count {
        order.push(index)?;
        if dice.below(4) == 0 {
            order.push(index)?;
        }
    }
    Ok(())
}

// Hands all in. How many were refused for want of a place, the only reason that there can be.
fn hands_all(replica: &mut Replica, outbox: &Outbox, order: &[usize]) -> Result<usize, Fail> {
    let mut refused: usize = 0;
    for index in order {
        match hand(replica, outbox, *index) {
            Ok(_) => (),
            Err(Refusal::RoomFull) => refused = refused.saturating_add(1),
            Err(why) => return Err(why.into()),
        }
    }
    Ok(refused)
}

// Hands all in, and again until none is refused. Whether one was.
fn hands_again(replica: &mut Replica, outbox: &Outbox, order: &[usize]) -> Result<bool, Fail> {
    for turn in 0..order.len() {
        if hands_all(replica, outbox, order)? == 0 {
            return Ok(turn != 0);
        }
    }
    Err("all taken in".into())
}

// Takes another's operations over, and counts them.
fn merges(one: &mut Replica, other: &Replica) -> Result<u64, Fail> {
    let before = taken_in(one)?;
    let Ok(new) = one.merge_from(other) else {
        return Err("a merge".into());
    };
    let after = taken_in(one)?;
    is(before.saturating_add(new) == after, "how many are new")?;
    Ok(new)
}

fn merges_all(replica: &mut Replica, writers: &[Replica]) -> Result<(), Fail> {
    for writer in writers {
        merges(replica, writer)?;
    }
    Ok(())
}

// What was sent, and what it shows.
#[derive(Clone, Copy)]
struct Sent<'a> {
    outbox: &'a Outbox,
    shown: &'a [Char],
}

// In which order messages come, and whether all come near their turn.
#[derive(Clone, Copy)]
struct Order<'a> {
    numbers: &'a [usize],
    is_near: bool,
}

// Half of the messages come in this order, and then what each of those who wrote has.
fn hears_half(
    reader: &mut Replica,
    writers: &[Replica],
    sent: Sent<'_>,
    order: Order<'_>,
) -> Result<(), Fail> {
    let half = order.numbers.len() / 2;
    let first = order.numbers.get(..half).ok_or("a half")?;
    let refused = hands_all(reader, sent.outbox, first)?;
    is(order.is_near != (refused != 0), "a full room")?;
    is(reader.waiting() != 0, "some wait")?;
    merges_all(reader, writers)?;
    // All that waited is held by now.
    let dropped = reader.waiting();
    let settled = reader.settle();
    is(settled.dropped == dropped, "what waited")?;
    is(settled.drained == 0 && !settled.stopped, "what waited")?;
    is(reader.waiting() == 0, "none waits")?;
    shows(reader, sent.shown)
}

// All messages come in this order, and then two merge both ways.
fn hears_all(
    reader: &mut Replica,
    writer: &mut Replica,
    sent: Sent<'_>,
    order: Order<'_>,
) -> Result<(), Fail> {
    let was_full = hands_again(reader, sent.outbox, order.numbers)?;
    is(order.is_near != was_full, "a full room")?;
    is(reader.waiting() == 0, "none waits")?;
    is(taken_in(reader)? == sent.outbox.len() as u64, "all of them")?;
    is(merges(reader, writer)? == 0, "nothing new")?;
    merges(writer, reader)?;
    shows(reader, sent.shown)?;
    shows(writer, sent.shown)
}

// A reader comes by this order to what was sent: by half of it, or by all.
fn comes_to_it(
    reader: &mut Replica,
    round: usize,
    writers: &mut [Replica],
    sent: Sent<'_>,
    order: Order<'_>,
) -> Result<(), Fail> {
    if round < ORDERS {
        return hears_half(reader, writers, sent, order);
    }
    let writer = writers
        .get_mut(round % usize::from(SITES))
        .ok_or("a writer")?;
    hears_all(reader, writer, sent, order)
}

fn a_reader_comes(
    alloc: Global,
    round: usize,
    writers: &mut [Replica],
    sent: Sent<'_>,
    order: Order<'_>,
) -> Result<(), Fail> {
    let mut reader = replica_of(alloc, 1, SITES + 1)?;
    comes_to_it(&mut reader, round, writers, sent, order)
}

// One order more; in each fifth messages come far from their turns.
fn comes_once(
    alloc: Global,
    dice: &mut Dice,
    round: usize,
    writers: &mut [Replica],
    sent: Sent<'_>,
    numbers: &mut Vec<usize>,
) -> Result<(), Fail> {
    let is_near = round % 5 != 0;
    add_numbers(dice, numbers, sent.outbox.len())?;
    let window = if is_near { WINDOW } else { numbers.len() };
    shuffle_within(dice, numbers, window);
    a_reader_comes(alloc, round, writers, sent, Order { numbers, is_near })
}

fn come_in_all_orders(
    alloc: Global,
    dice: &mut Dice,
    writers: &mut [Replica],
    sent: Sent<'_>,
) -> Result<(), Fail> {
    for round in 0..2 * ORDERS {
        comes_once(alloc, dice, round, writers, sent, &mut Vec::new(alloc))?;
    }
    all_show_it(writers, sent)
}

fn all_show_it(writers: &[Replica], sent: Sent<'_>) -> Result<(), Fail> {
    for writer in writers {
        shows(writer, sent.shown)?;
    }
    Ok(())
}

fn read(
    alloc: Global,
    dice: &mut Dice,
    writers: &mut [Replica],
    outbox: &Outbox,
) -> Result<(), Fail> {
    let shown = defined(alloc, &mut Vec::new(alloc), outbox)?;
    let sent = Sent {
        outbox,
        shown: &shown,
    };
    come_in_all_orders(alloc, dice, writers, sent)
}

fn write_and_read(
    alloc: Global,
    writers: &mut Vec<Replica>,
    outbox: &mut Outbox,
) -> Result<(), Fail> {
    for site in 1..=SITES {
        writers.push(replica_of(alloc, 1, site)?)?;
    }
    let mut dice = Dice { state: 1 };
    all_write(alloc, &mut dice, writers, outbox)?;
    read(alloc, &mut dice, writers, outbox)
}

// Whatever order messages come in, all show what is defined.
#[test]
fn all_orders_show_the_same() -> Result<(), Fail> {
    let alloc = fallible::Global;
    write_and_read(alloc, &mut Vec::new(alloc), &mut Outbox::new(alloc))
}
