//! What it costs that letters, typed one after the other, come to a note: `note_costs WAY LETTERS EACH` makes entries of so many letters each
//! (WAY `made`), reads and hashes them, too (`hashed`), and tells them to a note (`told`). It says the processor seconds that this took, and
//! the most memory.
use char_files::{Anchor, Name, SiteNo, TextNo};
use chunks::{ChunkWriter, read_chunk};
use fallible::{Fail, Global, Vec};
use looks::Looks;
use note::Note;
use note_admission::Opening;
use note_entries::{Hash, Saying};
use note_hashes::NoteKey;
use operations::{Kind, Op};

const NOBODY: &str = "no number";

// The letter of this seq, which hangs on the one before it.
fn letter(text: TextNo, site: SiteNo, seq: u32) -> Result<Op, Fail> {
    let cause = match seq {
        1 => Anchor::Root,
        _ => Anchor::At(Name::new(site, seq - 2).ok_or(NOBODY)?),
    };
    let kind = Kind::Insert {
        cause,
        at: seq - 1,
        looks: Looks::plain(),
        bytes: Vec::from_slice(Global, b"x")?,
    };
    Op::new(text, site, seq, u64::from(seq), kind).ok_or("no operation".into())
}

// The chunk of so many letters from this seq on.
fn chunk(text: TextNo, site: SiteNo, first: u32, many: u32) -> Result<Vec<u8>, Fail> {
    let mut writer = ChunkWriter::new(Global, text)?;
    for seq in first..first + many {
        if !writer.add(&letter(text, site, seq)?, seq - 1)? {
            return Err("no room".into());
        }
    }
    Ok(writer.into_bytes())
}

// What its author says by a chunk, after the message of this hash.
fn hashed(key: &NoteKey, mut before: Hash, chunk: &[u8]) -> Result<Vec<Saying>, Fail> {
    let mut said = Vec::new(Global);
    for op in read_chunk(Global, chunk)?.operations {
        let one = key.saying(Global, Hash::new(0, 0), before, op, None)?;
        before = one.hash;
        said.push(one)?;
    }
    Ok(said)
}

// What a line of /proc/self says.
fn told(file: &str, at: usize, of: &str) -> u64 {
    let text = std::fs::read_to_string(file).unwrap_or_default();
    let line = text.lines().find(|line| line.contains(of)).unwrap_or_default();
    line.split_whitespace().nth(at).and_then(|word| word.parse().ok()).unwrap_or(0)
}

fn main() -> Result<(), Fail> {
    let words: std::vec::Vec<std::string::String> = std::env::args().collect();
    let number = |at: usize| words.get(at).and_then(|word| word.parse::<u32>().ok()).ok_or(NOBODY);
    let (way, letters, each) = (words.get(1).ok_or("no way")?, number(2)?, number(3)?);
    let (text, site) = (TextNo::new(1).ok_or(NOBODY)?, SiteNo::new(1).ok_or(NOBODY)?);
    let (key, reader) = (NoteKey::new([7; 32]), SiteNo::new(2).ok_or(NOBODY)?);
    let opening = Opening { founder: Hash::new(0, 0), number: Some(site) };
    let mut note = Note::new(Global, NoteKey::new([7; 32]), opening, Vec::new(Global), reader)?;
    let (mut before, mut first) = (Hash::new(0, 0), 1);
    while first <= letters {
        let many = each.min(letters + 1 - first);
        let chunk = chunk(text, site, first, many)?;
        if way != "made" {
            let said = hashed(&key, before, &chunk)?;
            before = said.last().ok_or("nothing is said")?.hash;
            if way == "told" {
                for one in said {
                    note.say(one)?;
                }
                note.update()?;
            }
        }
        first += many;
    }
    let shown = note.text(text).ok_or("no text")?.shown_len();
    let ticks = told("/proc/self/stat", 13, "") + told("/proc/self/stat", 14, "");
    let memory = told("/proc/self/status", 1, "VmHWM");
    println!("{way} {letters} by {each}: {shown} shown, {:.2} s, {memory} kB", ticks as f64 / 100.0);
    Ok(())
}
