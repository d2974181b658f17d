use super::is;
use super::told::{Does, Parts, name, take};
use char_files::Buffer;
use fallible::{Fail, Global};
use looks::Refusal;
use operations::{MAX_RANGES, NameSet};
use taken_text::TakenText;

// A range as a test writes it: the site, the first offset, and how many names there are.
type Range = (u16, u32, u32);

// A run of equal looks as a test writes it: its bytes and its colour.
type Stretch = (&'static [u8], u8);

// Of the text `TOLD`, from a position to another: the names as a set, and the characters.
const STRETCHES: &[(u64, u64, &[Range], &[Stretch])] = &[
    (0, 3, &[(1, 0, 2), (2, 0, 1)], &[(b"AX", 1), (b"C", 3)]),
    (0, 2, &[(1, 0, 1), (2, 0, 1)], &[(b"AX", 1)]),
    (1, 3, &[(1, 1, 1), (2, 0, 1)], &[(b"X", 1), (b"C", 3)]),
    (2, 3, &[(1, 1, 1)], &[(b"C", 3)]),
    (1, 1, &[], &[]),
    (3, 3, &[], &[]),
];

fn is_set(set: &NameSet, want: &[Range]) -> bool {
    let mut ranges = set.ranges().iter();
    for (site, at, len) in want {
        let Some(range) = ranges.next() else {
            return false;
        };
        if range.site().get() != *site || range.at() != *at || range.len() != *len {
            return false;
        }
    }
    ranges.next().is_none()
}

fn is_buffer(buffer: &Buffer, want: &[Stretch]) -> bool {
    let mut runs = buffer.runs().iter();
    for (bytes, colour) in want {
        let Some(run) = runs.next() else {
            return false;
        };
        if run.bytes() != *bytes || run.looks().colour.number() != *colour {
            return false;
        }
    }
    runs.next().is_none()
}

fn has_names(text: &TakenText, beg: u64, end: u64, ranges: &[Range]) -> Result<(), Fail> {
    if end < beg || text.shown_len() < end {
        return Err("a stretch of the text".into());
    }
    let names = text.names_shown(beg, end)?;
    is(is_set(&names, ranges), "the names of a stretch")
}

fn has_chars(text: &TakenText, beg: u64, end: u64, runs: &[Stretch]) -> Result<(), Fail> {
    if end < beg || text.shown_len() < end {
        return Err("a stretch of the text".into());
    }
    let chars = text.stretch(beg, end)?;
    is(is_buffer(&chars, runs), "the characters of a stretch")
}

// Puts the name of a character of the text into the set.
fn add(text: &TakenText, set: &mut NameSet, parts: Parts) -> Result<(), Fail> {
    let name = name(parts)?;
    let Some(_) = text.place_of(name) else {
        return Err("a character of the text".into());
    };
    set.insert(name)?;
    Ok(())
}

// Pairs of characters, and whether both are shown: the `B` is hidden, the others are not.
const PAIRS: &[(Parts, Parts, bool)] = &[
    ((1, 0), (1, 1), true),
    ((1, 0), (2, 0), true),
    ((1, 0), (1, 2), false),
    ((1, 2), (2, 0), false),
    ((1, 2), (1, 2), false),
];

fn are_shown(
    text: &TakenText,
    set: &mut NameSet,
    first: Parts,
    second: Parts,
    shown: bool,
) -> Result<(), Fail> {
    add(text, set, first)?;
    add(text, set, second)?;
    is(text.are_shown(set) == shown, "whether both are shown")
}

fn asks(
    text: &TakenText,
    alloc: Global,
    (first, second, shown): (Parts, Parts, bool),
) -> Result<(), Fail> {
    let mut set = NameSet::new(alloc);
    are_shown(text, &mut set, first, second, shown)
}

// Of the text `TOLD`.
pub(super) fn tells_stretches(text: &TakenText, alloc: Global) -> Result<(), Fail> {
    for (beg, end, ranges, runs) in STRETCHES {
        has_names(text, *beg, *end, ranges)?;
        has_chars(text, *beg, *end, runs)?;
    }
    for pair in PAIRS {
        asks(text, alloc, *pair)?;
    }
    Ok(())
}

// Of so many characters, two more than twice as many as a set may have ranges, every other one is deleted.
const MANY: &[u8] = &[b'a'; 2050];

fn scatter(text: &mut TakenText, alloc: Global) -> Result<(), Fail> {
    take(text, alloc, (1, 1, 1, Does::Insert(None, 0, MANY)))?;
    for n in 0u16..1025 {
        let (seq, off) = (u32::from(n) + 2, 2 * u32::from(n));
        take(
            text,
            alloc,
            (1, seq, u64::from(seq), Does::Delete((1, off))),
        )?;
    }
    Ok(())
}

// How many ranges the first characters' names have.
fn ranges_to(text: &TakenText, end: u64) -> Result<Result<usize, Refusal>, Fail> {
    if text.shown_len() < end {
        return Err("a stretch of the text".into());
    }
    match text.names_shown(0, end) {
        Ok(names) => Ok(Ok(names.ranges().len())),
        Err(refusal) => Ok(Err(refusal)),
    }
}

fn is_scattered(text: &mut TakenText, alloc: Global) -> Result<(), Fail> {
    scatter(text, alloc)?;
    is(text.shown_len() == 1025, "half of them are left")?;
    is(ranges_to(text, 1024)? == Ok(MAX_RANGES), "1,024 ranges")?;
    is(
        ranges_to(text, 1025)? == Err(Refusal::Scattered),
        "one more",
    )
}

#[test]
fn too_many_ranges_are_refused() -> Result<(), Fail> {
    let mut text = TakenText::new(fallible::Global)?;
    is_scattered(&mut text, fallible::Global)
}
