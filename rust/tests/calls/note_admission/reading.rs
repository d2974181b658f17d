//! Rows that the plain program of the second form wrote.
use crate::note_rows::hash;
use fallible::Fail;
use note_admission::Fate;
use note_entries::{Digest, Hash};
use std::collections::HashMap;

/// The digests that rows say, by the hashes that they are of.
#[derive(Default)]
pub struct Said(HashMap<std::vec::Vec<String>, Hash>);

impl Said {
    /// Notes a row of a digest.
    pub fn note(&mut self, of: &str, hashes: &[&str]) -> Result<(), Fail> {
        let mut names = std::vec::Vec::new();
        for one in hashes {
            names.push(format!("{:?}", hash(one)?));
        }
        self.0.insert(names, hash(of)?);
        Ok(())
    }
}

impl Digest for Said {
    fn of(&self, hashes: &[Hash]) -> Hash {
        let names: std::vec::Vec<String> = hashes.iter().map(|hash| format!("{hash:?}")).collect();
        self.0.get(&names).copied().unwrap_or(Hash::new(0, 0))
    }
}

pub fn fate(name: &str) -> Result<Fate, Fail> {
    Ok(match name {
        "counts" => Fate::Counts,
        "wrong" => Fate::Wrong,
        "held" => Fate::HeldBack,
        "lacks" => Fate::Lacks,
        "others" => Fate::OnOthers,
        _ => return Err("no fate".into()),
    })
}
