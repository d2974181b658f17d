//! Words of rows about notes.
use fallible::{Fail, Global};
use note_entries::{Hash, Saying};

/// A hash or a key, in hex.
pub fn hash(hex: &str) -> Result<Hash, Fail> {
    let (high, low) = hex.split_at_checked(32).ok_or("a hash of another length")?;
    let half = |part| u128::from_str_radix(part, 16).map_err(|_| "no hash");
    Ok(Hash::new(half(high)?, half(low)?))
}

/// A message: its author, its hash, the one before it, what it builds on, and its bytes.
pub fn saying(fields: &[&str]) -> Result<Saying, Fail> {
    let &[author, own, before, on, message] = fields else {
        return Err("a row of another length".into());
    };
    let bytes = hex::decode(Global, message)?;
    Ok(Saying {
        author: hash(author)?,
        hash: hash(own)?,
        before: hash(before)?,
        on: if on == "-" { None } else { Some(hash(on)?) },
        op: operations::decode(Global, &bytes)?,
    })
}
