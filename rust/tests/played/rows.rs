//! The rows of `rows/`: a folder each, by `rows/README.md`.

use crate::running::{Ended, Files, Given, Stream, files_below};
use crate::sha256::sha256;
use crate::top;
use std::fs;
use std::io;
use std::path::{Path, PathBuf};

struct Row {
    given: Given,
    status: i32,
    // The output, or its sum where that is long.
    expected: Vec<u8>,
    sum: String,
    complaint: Vec<u8>,
    files_after: Files,
}

fn read(path: PathBuf, absent: &str) -> Vec<u8> {
    fs::read(path).unwrap_or_else(|_| absent.as_bytes().to_vec())
}

fn text(path: PathBuf, absent: &str) -> String {
    String::from_utf8_lossy(&read(path, absent))
        .trim()
        .to_owned()
}

fn stream(path: PathBuf) -> Stream {
    match text(path, "read").as_str() {
        "closed" => Stream::Closed,
        "unread" => Stream::Unread,
        _ => Stream::Read,
    }
}

// The files that a row has as one byte many times over.
fn files_made(listed: &str) -> Files {
    let made = listed.lines().filter_map(|line| {
        let mut words = line.split(' ');
        let name = PathBuf::from(words.next()?);
        let byte = u8::from_str_radix(words.next()?, 16).ok()?;
        Some((name, vec![byte; words.next()?.parse().ok()?]))
    });
    made.collect()
}

fn load(folder: &Path) -> io::Result<Row> {
    let at = |name: &str| folder.join(name);
    let mut files = files_made(&text(at("files-made"), ""));
    if at("files").is_dir() {
        files.extend(files_below(&at("files"))?);
    }
    let files_after = if at("files-after").is_dir() {
        files_below(&at("files-after"))?
    } else {
        files.clone()
    };
    let args = read(at("args"), "");
    // (an empty line is an empty word, and no line is none)
    let words = args.split_inclusive(|byte| *byte == b'\n');
    let words = words.map(|line| line.strip_suffix(b"\n").unwrap_or(line).to_vec());
    Ok(Row {
        given: Given {
            words: words.collect(),
            script: read(at("script"), ""),
            files,
            output: stream(at("output")),
            errors: stream(at("error-output")),
        },
        status: text(at("status"), "0").parse().map_err(io::Error::other)?,
        expected: read(at("expected"), ""),
        sum: text(at("expected-sha256"), ""),
        complaint: read(at("complaint"), ""),
        files_after,
    })
}

// What a run did in another way than its row has it.
fn faults(row: &Row, ended: &Ended) -> Vec<&'static str> {
    let wrote = if row.sum.is_empty() {
        ended.wrote == row.expected
    } else {
        sha256(&ended.wrote) == row.sum
    };
    let seen = [
        (ended.status == Some(row.status), "the status"),
        (wrote, "the output"),
        (ended.complained == row.complaint, "standard error"),
        (ended.files == row.files_after, "the files"),
    ];
    seen.into_iter()
        .filter(|(holds, _)| !holds)
        .map(|(_, what)| what)
        .collect()
}

#[test]
fn every_row_is_answered_as_it_has_it() -> io::Result<()> {
    let mut count = 0;
    let mut wrong = Vec::new();
    for entry in fs::read_dir(top().join("rows"))? {
        let folder = entry?.path();
        if folder.is_dir() {
            let row = load(&folder)?;
            let faults = faults(&row, &row.given.run()?);
            if !faults.is_empty() {
                wrong.push((folder, faults));
            }
            count += 1;
        }
    }
    assert!(wrong.is_empty(), "{wrong:#?}");
    assert!(count > 100, "there are {count} rows alone");
    Ok(())
}
