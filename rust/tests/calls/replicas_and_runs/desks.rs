use super::is;
use char_files::{SiteNo, TextNo};
use desk_texts::Texts;
use fallible::{Fail, Global};
use looks::Refusal;
use machine::{MAX_TEXT, Query};
use texts::{EditRefusal, Outbox};

// Site 1's desk; what is refused memory once is tried again.
fn desk_of_site_1(alloc: Global) -> Result<Texts, Fail> {
    let site = SiteNo::new(1).ok_or("site 1")?;
    match Texts::new(alloc, site) {
        Ok(desk) => Ok(desk),
        Err(_) => Ok(Texts::new(alloc, site)?),
    }
}

// Prints a text; what is refused memory once is tried again.
fn prints(desk: &Texts, text: TextNo, want: &[u8]) -> Result<(), Fail> {
    if MAX_TEXT < text.get() {
        return Err("a text".into());
    }
    let line = match desk.query(text, Query::Text) {
        Ok(line) => line,
        Err(_) => desk.query(text, Query::Text)?,
    };
    is(line.as_slice() == want, "a line")
}

// Types 4,096 bytes at most.
fn type_in(
    desk: &mut Texts,
    text: TextNo,
    (pos, bytes): (u64, &[u8]),
    outbox: &mut Outbox,
) -> Result<u32, EditRefusal> {
    if MAX_TEXT < text.get() || 4096 < bytes.len() {
        return Err(EditRefusal::Whole(Refusal::BadEvent));
    }
    desk.type_in(text, pos, bytes, outbox)
}

// Positions, bytes that are typed there, and the text's line before and after.
const EDITS: &[(u64, &[u8], &[u8], &[u8])] = &[
    (0, b"AC", b"text 0\n", b"text 2 AC\n"),
    (1, b"\\B\x7f", b"text 2 AC\n", b"text 5 A\\5cB\\7fC\n"),
];

// Makes an edit, which one message sends. Where memory is refused, the text is as it was before and no message is
// sent, and the edit is tried again.
fn goes_in(
    desk: &mut Texts,
    text: TextNo,
    (pos, bytes, before, after): &(u64, &[u8], &[u8], &[u8]),
    outbox: &mut Outbox,
) -> Result<(), Fail> {
    let sent = outbox.len();
    let mut answer = type_in(desk, text, (*pos, *bytes), outbox);
    if matches!(answer, Err(EditRefusal::Whole(Refusal::OutOfMemory { .. }))) {
        is(outbox.len() == sent, "no message")?;
        prints(desk, text, before)?;
        answer = type_in(desk, text, (*pos, *bytes), outbox);
    }
    is(
        answer == Ok(1) && outbox.len() == sent.saturating_add(1),
        "one message",
    )?;
    prints(desk, text, after)
}

const FIRST_MESSAGE: &[u8] =
    b"OT\x01\x01\x00\x10\x00\x01\x00\x00\x00\x01\x00\x00\x00\x00\x00\x00\x00\x01\
    \x00\x00\x00\x00\x00\x00\x00\x00\x00\x00\
    \x10Oberon10.Scn.Fnt\x01\x00\x00\x02AC";

fn all_go_in(desk: &mut Texts, text: TextNo, outbox: &mut Outbox) -> Result<(), Fail> {
    for edit in EDITS {
        goes_in(desk, text, edit, outbox)?;
    }
    let nothing = type_in(desk, text, (5, b""), outbox);
    is(nothing == Ok(0), "nothing typed")?;
    let after = type_in(desk, text, (6, b""), outbox);
    is(
        after == Err(EditRefusal::Whole(Refusal::OutOfRange)),
        "after the end",
    )?;
    is(
        outbox.len() == 2 && outbox.message(0) == FIRST_MESSAGE,
        "what is sent",
    )
}

// Whichever allocation of an edit is refused, the text and the messages are as they were before.
#[test]
fn types_and_prints() -> Result<(), Fail> {
    let last = TextNo::new(MAX_TEXT).ok_or("the last text")?;
    let mut desk = desk_of_site_1(fallible::Global)?;
    all_go_in(&mut desk, last, &mut Outbox::new(fallible::Global))
}
