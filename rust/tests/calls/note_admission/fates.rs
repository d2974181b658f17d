//! What becomes of messages of random notes. A row of `fate` says what becomes of the next message of a chain, one of `admit` which of
//! those above counts next.
use crate::note_rows::saying;
use crate::reading::{Said, fate};
use calls::is;
use char_files::SiteNo;
use fallible::{Fail, Global, Vec};
use note_admission::{Admitted, Continuing, Fate};
use note_entries::Saying;
use op_log::Log;

const ROWS: &str = include_str!("fates.txt");

// A text of a note, as far as rows admitted it.
struct Text {
    log: Log,
    admitted: Admitted,
    heads: std::vec::Vec<Saying>,
}

impl Text {
    fn new(base: &[&str]) -> Result<Text, Fail> {
        let mut sites = Vec::new(Global);
        for site in base {
            let number = site.parse().map_err(|_| "no number")?;
            sites.push(SiteNo::new(number).ok_or("no number")?)?;
        }
        Ok(Text {
            log: Log::new(Global),
            admitted: Admitted::new(Global, &sites)?,
            heads: std::vec::Vec::new(),
        })
    }

    fn admit(&mut self, index: usize) -> Result<(), Fail> {
        let saying = self.heads.swap_remove(index);
        self.log.reserve(saying.op.site())?;
        self.admitted.admit(&saying)?;
        self.log.push(saying.op);
        self.heads.clear();
        Ok(())
    }
}

#[test]
fn each_next_message_has_its_fate() -> Result<(), Fail> {
    let mut digests = Said::default();
    let mut text = Text::new(&[])?;
    for row in ROWS.lines() {
        let words: std::vec::Vec<&str> = row.split(' ').collect();
        match words.as_slice() {
            ["base", sites @ ..] => text = Text::new(sites)?,
            ["digest", of, "=", hashes @ ..] => digests.note(of, hashes)?,
            ["fate", name, fields @ ..] => {
                let one = saying(fields)?;
                let told = text.admitted.fate(&text.log, &digests, &one)?;
                is(told == fate(name)?, "another fate")?;
                let builds_on = text.admitted.builds_on(&text.log, &digests, &one.op, &Continuing::new(Global));
                match told {
                    Fate::Counts => is(builds_on == Ok(one.on), "it builds on something else")?,
                    Fate::OnOthers => is(builds_on.is_ok_and(|on| on != one.on), "it doesn't")?,
                    Fate::Wrong | Fate::HeldBack | Fate::Lacks => {}
                }
                text.heads.push(one);
            }
            ["admit", index] => text.admit(index.parse().map_err(|_| "no index")?)?,
            _ => return Err("no row".into()),
        }
    }
    Ok(())
}
