use super::fixtures::{are_looks, looks_of, vec_of};
use super::is;
use fallible::{Fail, Global, Vec};
use looks::{Looks, Refusal};
use operations::{read_looks, write_looks};

const PLAIN: &[u8] = b"\x10Oberon10.Scn.Fnt\x01\x00";

// The font, the colour and the offset of looks, and how many bytes spell them.
type Found = Option<(&'static [u8], u8, i8, usize)>;

// What it is, the bytes, and the looks that they begin with.
type Row = (&'static str, &'static [u8], Found);

const LOOKS: &[Row] = &[
    (
        "default looks",
        PLAIN,
        Some((b"Oberon10.Scn.Fnt", 1, 0, 19)),
    ),
    (
        "default looks with bytes after them",
        b"\x10Oberon10.Scn.Fnt\x01\x00\x00\x06Oberon",
        Some((b"Oberon10.Scn.Fnt", 1, 0, 19)),
    ),
    (
        "the greatest offset",
        b"\x01A\x0f\x7f",
        Some((b"A", 15, 127, 4)),
    ),
    (
        "the least offset",
        b"\x01z\x00\x80",
        Some((b"z", 0, -128, 4)),
    ),
    (
        "a font of 31 bytes",
        b"\x1fabcdefghijklmnopqrstuvwxyz.2345\x02\xff",
        Some((b"abcdefghijklmnopqrstuvwxyz.2345", 2, -1, 34)),
    ),
    (
        "a font of 32 bytes",
        b"\x20abcdefghijklmnopqrstuvwxyz.23456\x02\xff",
        None,
    ),
    ("a font of no bytes", b"\x00\x01\x00", None),
    ("colour 16", b"\x10Oberon10.Scn.Fnt\x10\x00", None),
    (
        "a font that begins with a full stop",
        b"\x02.A\x01\x00",
        None,
    ),
];

// The looks' spelling is these bytes. Where an allocation of `write_looks` is refused, the vector has to be as it
// was before.
fn writes(looks: &Looks, bytes: &mut Vec<u8>, spelling: &[u8]) -> bool {
    if let Err(refusal) = write_looks(looks, bytes) {
        let kept = bytes.as_slice() == b"before".as_slice();
        if !matches!(refusal, Refusal::OutOfMemory { .. })
            || !kept
            || write_looks(looks, bytes).is_err()
        {
            return false;
        }
    }
    bytes.as_slice().strip_prefix(b"before") == Some(spelling)
}

fn is_written(alloc: Global, looks: &Looks, spelling: &[u8]) -> bool {
    match vec_of(alloc, b"before") {
        Ok(mut bytes) => writes(looks, &mut bytes, spelling),
        Err(_) => false,
    }
}

// Whether these looks, if there are any, are spelled by the bytes that they are read from.
fn are_spelled(alloc: Global, bytes: &[u8], found: Found) -> bool {
    let Some((font, colour, offset, len)) = found else {
        return true;
    };
    let Some(spelling) = bytes.get(..len) else {
        return false;
    };
    match looks_of((font, colour, offset)) {
        Some(looks) => is_written(alloc, &looks, spelling),
        None => false,
    }
}

fn all_are_spelled(alloc: Global, rows: &[Row]) -> Result<(), Fail> {
    for row in rows {
        is(are_spelled(alloc, row.1, row.2), row.0)?;
    }
    Ok(())
}

// Looks are spelled by the bytes that they are read from.
#[test]
fn looks_are_spelled() -> Result<(), Fail> {
    all_are_spelled(fallible::Global, LOOKS)
}

// Whether the bytes begin with just these looks.
fn is_read_so(bytes: &[u8], want: Found) -> bool {
    let Some((looks, len)) = read_looks(bytes) else {
        return want.is_none();
    };
    let Some((font, colour, offset, want_len)) = want else {
        return false;
    };
    are_looks(&looks, (font, colour, offset)) && len == want_len
}

fn all_are_read(rows: &[Row]) -> Result<(), Fail> {
    for row in rows {
        is(is_read_so(row.1, row.2), row.0)?;
    }
    Ok(())
}

// No front of the bytes is read.
fn has_no_front(bytes: &[u8]) -> bool {
    for len in 0..bytes.len() {
        if read_looks(&bytes[..len]).is_some() {
            return false;
        }
    }
    true
}

#[test]
fn looks_are_read() -> Result<(), Fail> {
    all_are_read(LOOKS)?;
    is(has_no_front(PLAIN), "a front")
}
