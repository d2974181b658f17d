use super::is;
use char_files::{Buffer, Plain};
use fallible::{Fail, Global, Vec};
use looks::{Colour, FontName, Looks, Refusal};
use reader_scanner::Reader;
use text_file::{MAX_STORED, load, store};

// The formatted file of `Edit.Store s` in the default looks.
pub(super) const STORED: &[u8; 47] =
    b"OTF1\x00\x00\x00\x01\x10Oberon10.Scn.Fnt\x01\x00\x00\x00\x00\x0c\x00\x00\x00\x0cEdit.Store s";

// The formatted file of `a` in the default looks and `bc` in the font `Syntax12.Scn.Fnt`, colour 3, one below
// the base line.
const TWO_RUNS: &[u8] = b"OTF1\x00\x00\x00\x02\x10Oberon10.Scn.Fnt\x01\x00\x00\x00\x00\x01\
\x10Syntax12.Scn.Fnt\x03\xff\x00\x00\x00\x02\x00\x00\x00\x03abc";

// The formatted file of the empty text.
const EMPTY: &[u8] = b"OTF1\x00\x00\x00\x00\x00\x00\x00\x00";

// Plain files, and their characters.
const PLAIN_FILES: &[(&[u8], &[u8])] = &[
    (b"a\r\nb\n", b"a\rb\r"),
    (b"OTF", b"OTF"),
    (b"", b""),
    (b"\n", b"\r"),
    (b"\r", b"\r"),
    (b"\r\r\n\n", b"\r\r\r"),
    (b"\n\r\n\r", b"\r\r\r"),
    (b"\x00\xff\t\\", b"\x00\xff\t\\"),
    (b"xOTF1", b"xOTF1"),
];

// Files that begin with the tag and are refused.
const REFUSED: &[(&str, &[u8])] = &[
    (
        "a run longer than the whole",
        b"OTF1\x00\x00\x00\x01\x10Oberon10.Scn.Fnt\x01\x00\x00\x00\x00\x02\x00\x00\x00\x01a",
    ),
    (
        "an empty run",
        b"OTF1\x00\x00\x00\x01\x10Oberon10.Scn.Fnt\x01\x00\x00\x00\x00\x00\x00\x00\x00\x00",
    ),
    (
        "two runs of the same looks",
        b"OTF1\x00\x00\x00\x02\x01A\x01\x00\x00\x00\x00\x01\x01A\x01\x00\x00\x00\x00\x01\x00\x00\x00\x02ab",
    ),
    (
        "a byte after the end",
        b"OTF1\x00\x00\x00\x01\x01A\x01\x00\x00\x00\x00\x01\x00\x00\x00\x01ab",
    ),
    (
        "a byte too few",
        b"OTF1\x00\x00\x00\x01\x01A\x01\x00\x00\x00\x00\x02\x00\x00\x00\x02a",
    ),
    (
        "colour 16",
        b"OTF1\x00\x00\x00\x01\x01A\x10\x00\x00\x00\x00\x01\x00\x00\x00\x01a",
    ),
    (
        "more runs than there are",
        b"OTF1\xff\xff\xff\xff\x01A\x01\x00\x00\x00\x00\x01\x00\x00\x00\x01a",
    ),
    (
        "a length past 2^20",
        b"OTF1\x00\x00\x00\x01\x01A\x01\x00\x00\x10\x00\x01\x00\x10\x00\x01a",
    ),
];

// Whether the text has these bytes, from a position on, in these looks.
fn has(text: &Buffer, from: u64, bytes: &[u8], looks: &Looks) -> bool {
    let mut reader = Reader::open(text, from);
    for byte in bytes {
        match reader.read() {
            Some((read, its)) if read == *byte && its == *looks => {}
            _ => return false,
        }
    }
    true
}

fn is_plain(text: &Buffer, bytes: &[u8]) -> bool {
    text.len() == bytes.len() as u64 && has(text, 0, bytes, &Looks::plain())
}

// A text's file, if it has one.
fn is_file_of(alloc: Global, text: &Buffer, want: &[u8]) -> bool {
    let mut file = Vec::new(alloc);
    store(text, &mut file).is_ok() && file.as_slice() == want
}

// Whether the file is loaded as these characters in plain looks. Where memory is refused it is said.
fn is_loaded(loaded: &Result<Buffer, Refusal>, chars: &[u8]) -> bool {
    match loaded {
        Ok(text) => is_plain(text, chars),
        Err(refusal) => matches!(refusal, Refusal::OutOfMemory { .. }),
    }
}

fn loads(alloc: Global, file: &[u8], chars: &[u8]) -> Result<(), Fail> {
    let loaded = load(alloc, file);
    is(is_loaded(&loaded, chars), "a plain file")
}

#[test]
fn plain_files_are_loaded() -> Result<(), Fail> {
    for (file, chars) in PLAIN_FILES {
        loads(fallible::Global, file, chars)?;
    }
    Ok(())
}

// Whichever allocation of `store` is refused, the vector is as it was before.
fn goes_behind(file: &mut Vec<u8>) -> Result<(), Fail> {
    file.extend_from_slice(b"before")?;
    if let Err(refusal) = store(&Plain(b"Edit.Store s"), file) {
        is(
            matches!(refusal, Refusal::OutOfMemory { .. }),
            "memory alone",
        )?;
        is(file.as_slice() == b"before".as_slice(), "as before")?;
        store(&Plain(b"Edit.Store s"), file)?;
    }
    let (before, stored) = file.as_slice().split_at(6.min(file.len()));
    is(before == b"before".as_slice(), "what was there")?;
    is(stored == STORED.as_slice(), "the file after it")?;
    file.clear();
    store(&Plain(b""), file)?;
    is(file.as_slice() == EMPTY, "of the empty text")
}

#[test]
fn a_text_is_stored_behind_what_is_there() -> Result<(), Fail> {
    let mut file = Vec::new(fallible::Global);
    goes_behind(&mut file)
}

fn has_two_runs(alloc: Global, text: &Buffer) -> Result<(), Fail> {
    let looks = Looks {
        font: FontName::new(b"Syntax12.Scn.Fnt").ok_or("a font")?,
        colour: Colour::new(3).ok_or("a colour")?,
        offset: -1,
    };
    is(text.len() == 3, "three characters")?;
    is(has(text, 0, b"a", &Looks::plain()), "a plain one")?;
    is(has(text, 1, b"bc", &looks), "two in other looks")?;
    is(is_file_of(alloc, text, TWO_RUNS), "the same file")
}

#[test]
fn runs_are_loaded_and_stored() -> Result<(), Fail> {
    let text = load(fallible::Global, TWO_RUNS)?;
    has_two_runs(fallible::Global, &text)
}

#[test]
fn the_empty_text_is_loaded() -> Result<(), Fail> {
    is(loaded_len(fallible::Global, EMPTY) == Ok(0), "no characters")
}

// How many characters the text of this file has.
fn loaded_len(alloc: Global, file: &[u8]) -> Result<u64, Refusal> {
    Ok(load(alloc, file)?.len())
}

#[test]
fn other_tagged_files_are_refused() -> Result<(), Fail> {
    for (what, file) in REFUSED {
        is(loaded_len(fallible::Global, file) == Err(Refusal::BadFile), what)?;
    }
    Ok(())
}

#[test]
fn fronts_of_a_file_are_plain_or_refused() -> Result<(), Fail> {
    for len in 0..STORED.len() {
        let front = STORED.get(..len).ok_or("no front")?;
        if len < 4 {
            loads(fallible::Global, front, front)?;
        } else {
            is(
                loaded_len(fallible::Global, front) == Err(Refusal::BadFile),
                "a front",
            )?;
        }
    }
    Ok(())
}

// A file in which one byte was changed is plain, or refused, or of the text that has this file.
fn is_allowed(alloc: Global, place: usize, file: &[u8], loaded: &Result<Buffer, Refusal>) -> bool {
    match loaded {
        Ok(text) if place < 4 => text.len() == 47,
        Ok(text) => is_file_of(alloc, text, file),
        Err(refusal) => 4 <= place && *refusal == Refusal::BadFile,
    }
}

fn loads_as_allowed(alloc: Global, place: usize, file: &[u8]) -> Result<(), Fail> {
    let loaded = load(alloc, file);
    is(is_allowed(alloc, place, file, &loaded), "a changed byte")
}

#[test]
fn files_with_a_changed_byte() -> Result<(), Fail> {
    for place in 0..STORED.len() {
        for change in 1..=255 {
            let mut file = *STORED;
            file[place] ^= change;
            loads_as_allowed(fallible::Global, place, &file)?;
        }
    }
    Ok(())
}

fn is_too_long(alloc: Global, bytes: &[u8]) -> Result<(), Fail> {
    is(
        loaded_len(alloc, bytes) == Err(Refusal::BadFile),
        "too long to load",
    )?;
    let mut file = Vec::from_slice(alloc, b"before")?;
    let stored = store(&Plain(bytes), &mut file);
    is(
        stored == Err(Refusal::BadFile) && file.as_slice() == b"before".as_slice(),
        "too long to store",
    )
}

// How long the file of these characters is.
fn file_len(alloc: Global, bytes: &[u8]) -> Result<usize, Refusal> {
    let mut file = Vec::new(alloc);
    store(&Plain(bytes), &mut file)?;
    Ok(file.len())
}

fn have_a_bound(alloc: Global, bytes: &mut Vec<u8>) -> Result<(), Fail> {
    for _ in 0..MAX_STORED {
        bytes.push(b'a')?;
    }
    is(loaded_len(alloc, bytes) == Ok(1048576), "2^20 are loaded")?;
    is(file_len(alloc, bytes) == Ok(35 + 1048576), "and stored")?;
    bytes.push(b'a')?;
    is_too_long(alloc, bytes)?;
    // The two bytes of a line end are one character.
    bytes.truncate(1048575);
    bytes.extend_from_slice(b"\r\n")?;
    is(loaded_len(alloc, bytes) == Ok(1048576), "a line end is one")
}

#[test]
fn a_file_may_have_2_to_the_20_characters() -> Result<(), Fail> {
    let mut bytes = Vec::new(fallible::Global);
    have_a_bound(fallible::Global, &mut bytes)
}
