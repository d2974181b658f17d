//! Readers and writers that fail.
use super::fakes::{Fault, Limited, Reader};
use super::is;
use fallible::{Fail, Global, Vec};
use looks::Refusal;
use script_io::{Input, Output};
use script_runs::{run, status_of};
use script_sites::Settings;
use shelf::MemoryShelf;

/// How a run ended.
#[derive(Clone, Copy, PartialEq, Eq)]
struct Ending {
    result: Result<(), Refusal>,
    read_failed: bool,
    write_failed: bool,
    flushed: bool,
}

const WELL: Ending = Ending {
    result: Ok(()),
    read_failed: false,
    write_failed: false,
    flushed: true,
};

const READ_FAULT: Ending = Ending {
    result: Err(Refusal::ReadFault),
    read_failed: true,
    write_failed: false,
    flushed: true,
};

const WRITE_FAULT: Ending = Ending {
    result: Err(Refusal::WriteFault),
    read_failed: false,
    write_failed: true,
    flushed: false,
};

// How a writer fails, how many bytes it takes at a time, after how many, and when it was flushed how often.
type How = (Fault, usize, usize, usize);

// Plays a script into such a writer; what that has, and how the run ended.
fn play(
    alloc: Global,
    reader: Reader<'_>,
    (fault, step, room, most): How,
) -> Result<(Limited, Ending), Refusal> {
    let mut input = Input::new(alloc, reader)?;
    let mut output = Output::new(Limited {
        out: Vec::new(alloc),
        fault,
        step,
        room,
        most,
        flushes: 0,
        flushed: 0,
    });
    let mut shelf = MemoryShelf::new(alloc);
    let result = run(
        alloc,
        &mut input,
        &mut output,
        &mut shelf,
        Settings::default(),
    );
    let ending = Ending {
        result,
        read_failed: input.failed(),
        write_failed: output.failed(),
        flushed: output.flushed(),
    };
    Ok((output.into_writer(), ending))
}

// Plays a script into a writer that is to have these bytes in the end, all flushed where the run says so. How often
// it was flushed.
fn leaves(
    alloc: Global,
    reader: Reader<'_>,
    how: How,
    (bytes, end): (&[u8], Ending),
) -> Result<usize, Fail> {
    let (writer, ended) = play(alloc, reader, how)?;
    if writer.out.as_slice() != bytes || ended != end {
        return Err("what a writer has".into());
    }
    if ended.flushed && writer.flushed != bytes.len() {
        return Err("a flush".into());
    }
    Ok(writer.flushes)
}

// A writer that takes all.
const TAKES_ALL: How = (Fault::Fails, 1000, 1000, 100);

const SCRIPT: &[u8] = b"1 type 1 0 Oberon\n1 text 1\n1 typo\n# a comment\n";

const ANSWERS: &[u8] =
    b"send m1 4f5401010001000100000001000000000000000100000000000000000000104f6265726f6e31302e53636e2e466e74010000064f6265726f6e\nok\ntext 6 Oberon\nrefused 20\n";

// How much of the script is given before a fault, from so many bytes up to so many, and what is answered then: to the
// lines that ended, and the refusal; nothing to what the reader would give after its fault.
const CUT_OFF: &[(usize, usize, &[u8])] = &[
    (0, 18, b"refused 21\n"),
    (
        18,
        27,
        b"send m1 4f5401010001000100000001000000000000000100000000000000000000104f6265726f6e31302e53636e2e466e74010000064f6265726f6e\nok\nrefused 21\n",
    ),
    (
        27,
        34,
        b"send m1 4f5401010001000100000001000000000000000100000000000000000000104f6265726f6e31302e53636e2e466e74010000064f6265726f6e\nok\ntext 6 Oberon\nrefused 21\n",
    ),
    (
        34,
        47,
        b"send m1 4f5401010001000100000001000000000000000100000000000000000000104f6265726f6e31302e53636e2e466e74010000064f6265726f6e\nok\ntext 6 Oberon\nrefused 20\nrefused 21\n",
    ),
];

fn cut_off(alloc: Global, (beg, end, want): (usize, usize, &[u8])) -> Result<(), Fail> {
    for len in beg..end {
        let reader = Reader {
            bytes: SCRIPT,
            step: 1000,
            good: Some(len),
        };
        leaves(alloc, reader, TAKES_ALL, (want, READ_FAULT))?;
    }
    Ok(())
}

#[test]
fn the_reader_fails_once_at_each_byte() -> Result<(), Fail> {
    for row in CUT_OFF {
        cut_off(fallible::Global, *row)?;
    }
    Ok(())
}

const HOW: &[(Fault, usize)] = &[
    (Fault::Fails, 1),
    (Fault::Fails, 7),
    (Fault::Fails, 1000),
    (Fault::IsInterrupted, 1),
    (Fault::IsInterrupted, 7),
    (Fault::IsInterrupted, 1000),
    (Fault::TakesNothing, 1),
    (Fault::TakesNothing, 7),
    (Fault::TakesNothing, 1000),
];

fn fails_at_each_byte(alloc: Global, (fault, step): (Fault, usize)) -> Result<(), Fail> {
    let reader = Reader {
        bytes: SCRIPT,
        step: 1000,
        good: None,
    };
    for room in 0..ANSWERS.len() {
        let want = (&ANSWERS[..room], WRITE_FAULT);
        leaves(alloc, reader, (fault, step, room, 100), want)?;
    }
    let how = (fault, step, ANSWERS.len(), 100);
    leaves(alloc, reader, how, (ANSWERS, WELL))?;
    Ok(())
}

#[test]
fn the_writer_fails_at_each_byte() -> Result<(), Fail> {
    for how in HOW {
        fails_at_each_byte(fallible::Global, *how)?;
    }
    Ok(())
}

#[test]
fn reader_and_writer_fail() -> Result<(), Fail> {
    let want = b"text 0\nrefused 21\n".as_slice();
    let reader = Reader {
        bytes: b"1 text 1\n2 text 1",
        step: 1000,
        good: Some(17),
    };
    for room in 0..want.len() {
        // The reader is asked again after the first answer.
        let end = Ending {
            read_failed: 7 <= room,
            ..WRITE_FAULT
        };
        let how = (Fault::Fails, 3, room, 100);
        leaves(fallible::Global, reader, how, (&want[..room], end))?;
    }
    Ok(())
}

// How a script is read: how much at a time, and whether the reader fails after it; how often a flush goes well; what is
// written, how the run ends, and how often was flushed.
type Flushing = (
    &'static [u8],
    usize,
    bool,
    usize,
    &'static [u8],
    Ending,
    usize,
);

const TWO_LINES: &[u8] = b"1 text 1\n1 typo\n";

const THREE_LINES: &[u8] = b"1 text 1\n2 text 1\n1 typo\n";

const THREE_ANSWERS: &[u8] = b"text 0\ntext 0\nrefused 20\n";

const FLUSHING: &[Flushing] = &[
    // Lines that come byte by byte: a flush before each, one before the end is found, and one at the end.
    (TWO_LINES, 1, false, 0, b"", WRITE_FAULT, 0),
    (TWO_LINES, 1, false, 1, b"text 0\n", WRITE_FAULT, 1),
    (
        TWO_LINES,
        1,
        false,
        2,
        b"text 0\nrefused 20\n",
        WRITE_FAULT,
        2,
    ),
    (
        TWO_LINES,
        1,
        false,
        3,
        b"text 0\nrefused 20\n",
        WRITE_FAULT,
        3,
    ),
    (THREE_LINES, 1, false, 100, THREE_ANSWERS, WELL, 5),
    // All lines are held but the first, and what follows the last: a flush before each, and one at the end.
    (THREE_LINES, 1000, false, 100, THREE_ANSWERS, WELL, 3),
    // One before the only ask, and one after the answer.
    (b"1 text 1", 1000, true, 100, b"refused 21\n", READ_FAULT, 2),
];

#[test]
fn answers_are_flushed() -> Result<(), Fail> {
    for (bytes, step, fails, most, answers, end, times) in FLUSHING {
        let reader = Reader {
            bytes: *bytes,
            step: *step,
            good: fails.then_some(bytes.len()),
        };
        let how = (Fault::Fails, 1000, 1000, *most);
        let flushes = leaves(fallible::Global, reader, how, (*answers, *end))?;
        is(flushes == *times, "how often")?;
    }
    Ok(())
}

#[test]
fn statuses() -> Result<(), Fail> {
    is(status_of(&Ok(())) == 0, "a run that ended well")?;
    is(
        status_of(&Refusal::within_memory(1, 0)) == 1,
        "a run that was refused memory",
    )?;
    for why in [Refusal::ReadFault, Refusal::WriteFault] {
        is(status_of(&Err(why)) == 1, "a run that didn't")?;
    }
    Ok(())
}
