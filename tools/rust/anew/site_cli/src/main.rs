//! Runs a script of events for the sites that the command line names: reads it from standard input, and writes
//! the answers to standard output. Its files are those of the current folder.
//!
//! It begins at C's `main`, and not at Rust's, which would open a stream that the caller closed, so that a write
//! to it would seem to succeed.
#![no_main]

mod numbers;
mod settings;

use crate::settings::{error_status, read_settings};
use fallible::{BufWriter, Global, String, Vec};
use folder_shelf::{FolderShelf, HostFolder};
use script_io::{Input, Output};
use script_runs::{run, status_of};
use std::ffi::{CStr, c_char, c_int};
use std::fs::File;
use std::io::{self, ErrorKind, Write};
use std::mem::ManuallyDrop;
use std::os::fd::{FromRawFd, RawFd};

// The status where the words can't be had: that of a wrong command line.
const NO_WORDS: u8 = 2;

// The status where memory is refused before the run begins.
const FAILED: u8 = 1;

// How many bytes of answers wait at most, where the script is at hand.
const KEPT_BACK: usize = 1 << 16;

// The numbers of the streams.
const INPUT: RawFd = 0;
const OUTPUT: RawFd = 1;
const ERRORS: RawFd = 2;

// What the system calls a write to a pipe that nobody reads, and that it is to be ignored: the write fails then.
const BROKEN_PIPE: c_int = 13;
const IGNORE: usize = 1;

unsafe extern "C" {
    safe fn signal(number: c_int, handler: usize) -> usize;
}

// A stream that the program was called with. It isn't closed.
fn stream(number: RawFd) -> ManuallyDrop<File> {
    // SAFETY: nothing in this program closes a stream, so none has another file under its number.
    ManuallyDrop::new(unsafe { File::from_raw_fd(number) })
}

// The words that C's `main` is given.
//
// SAFETY: for the caller: there are `count` pointers at `words`, each to bytes that a 0 ends.
unsafe fn gathered(
    alloc: Global,
    count: c_int,
    words: *const *const c_char,
) -> io::Result<Vec<String>> {
    let mut found = Vec::new(alloc);
    for at in 0..usize::try_from(count).unwrap_or(0) {
        // SAFETY: as above.
        let word = unsafe { CStr::from_ptr(*words.add(at)) };
        let word = word
            .to_str()
            .map_err(|_| io::Error::from(ErrorKind::InvalidData))?;
        let word = String::from_str(alloc, word)?;
        found.push(word).map_err(fallible::AllocError::from)?;
    }
    Ok(found)
}

// Runs the script; answers the status.
fn run_script(alloc: Global, words: &[String]) -> io::Result<u8> {
    let settings = match read_settings(alloc, words) {
        Ok(settings) => settings,
        // What is wrong with the words decides the status, also where it can't be written.
        Err(error) => {
            let _unwritten = error.print();
            return Ok(error_status(&error));
        }
    };
    let (reader, writer) = (stream(INPUT), stream(OUTPUT));
    let mut output = Output::new(BufWriter::with_capacity(alloc, KEPT_BACK, &*writer)?);
    let mut shelf = FolderShelf::new(HostFolder, alloc);
    let ended = match Input::new(alloc, &*reader) {
        Ok(mut input) => run(alloc, &mut input, &mut output, &mut shelf, settings),
        Err(why) => Err(why),
    };
    Ok(status_of(&ended))
}

/// Runs the program.
///
/// # Safety
///
/// There are `count` pointers at `words`, each to bytes that a 0 ends, as C gives them to `main`.
#[unsafe(no_mangle)]
pub unsafe extern "C" fn main(count: c_int, words: *const *const c_char) -> c_int {
    signal(BROKEN_PIPE, IGNORE);
    let alloc = Global;
    // SAFETY: as above.
    let status = match unsafe { gathered(alloc, count, words) } {
        Ok(words) => run_script(alloc, &words).unwrap_or(FAILED),
        Err(why) => {
            let _unwritten = writeln!(&*stream(ERRORS), "error: {why}");
            NO_WORDS
        }
    };
    c_int::from(status)
}
