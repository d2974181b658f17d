//! The scripts of `crates/script_rows`, and the script of `crates/site_cli`.

use crate::running::Given;
use crate::top;
use std::fs;
use std::io;

// What stands between the rows of a file.
const MARK: &str = "\n= ";
const OPTIONS: [&str; 4] = ["--first", "--count", "--width", "--height"];

fn read(name: &str) -> io::Result<String> {
    fs::read_to_string(top().join("crates").join(name))
}

// A script in which `<3*ab>` stands for ababab.
fn spelled(script: &str) -> String {
    let mut made = String::new();
    let mut left = script;
    while let Some((before, rest)) = left.split_once('<') {
        made.push_str(before);
        let repeated = rest.split_once('>').and_then(|(inner, after)| {
            let (count, text) = inner.split_once('*')?;
            Some((text.repeat(count.parse().ok()?), after))
        });
        match repeated {
            Some((text, after)) => {
                made.push_str(&text);
                left = after;
            }
            None => {
                made.push('<');
                left = rest;
            }
        }
    }
    made + left
}

// What the program does with a row: its name, what is written, and whether the run failed.
fn played(row: &str) -> io::Result<(String, String, bool)> {
    let (head, script) = row.split_once('\n').unwrap_or((row, ""));
    let mut head = head.splitn(5, ' ');
    let words: Vec<String> = OPTIONS
        .iter()
        .zip(head.by_ref())
        .flat_map(|(option, number)| [(*option).to_owned(), number.to_owned()])
        .collect();
    let ended = Given::script(&words, spelled(script).as_bytes()).run()?;
    let wrote = String::from_utf8_lossy(&ended.wrote).trim_end().to_owned();
    Ok((
        head.next().unwrap_or("").to_owned(),
        wrote,
        ended.status != Some(0),
    ))
}

// The same as it is written down. How a run ended is told only where it didn't end well.
fn written_down(row: &str) -> (String, String, bool) {
    let (head, wrote) = row.split_once('\n').unwrap_or((row, ""));
    let (name, ending) = head.split_once(": Ending").unwrap_or((head, ""));
    (
        name.to_owned(),
        wrote.trim_end().to_owned(),
        !ending.is_empty(),
    )
}

#[test]
fn every_script_is_answered_as_it_is_written_down() -> io::Result<()> {
    let (given, expected) = (read("script_rows/stdin")?, read("script_rows/stdout")?);
    let expected = format!("\n{expected}");
    let (given, expected): (Vec<_>, Vec<_>) = (
        given.split(MARK).skip(1).collect(),
        expected.split(MARK).skip(1).collect(),
    );
    assert_eq!(given.len(), expected.len());
    for (row, wanted) in given.iter().zip(expected) {
        assert_eq!(played(row)?, written_down(wanted), "of {row}");
    }
    Ok(())
}

#[test]
fn the_programs_own_script_is_answered() -> io::Result<()> {
    let ended = Given::script(&[], read("site_cli/stdin")?.as_bytes()).run()?;
    assert_eq!(
        String::from_utf8_lossy(&ended.wrote),
        read("site_cli/stdout")?
    );
    Ok(())
}
