//! A packed file: a site types Oberob, takes the last letter back, and types an n.
use super::is;
use fallible::{Fail, Global, Vec};
use kept_file::{load_packed, store_packed};
use texts::Replica;

const FILE: &[u8] = b"OTP1\x00\x01\x00\x01\x01\x01\x00Oberob\x08n";

// The text has six characters, and is kept as this file.
fn is_kept_as(replica: &Replica, alloc: Global, file: &[u8]) -> Result<(), Fail> {
    let mut out = Vec::new(alloc);
    store_packed(replica, &mut out)?;
    is(replica.shown_len() == 6, "another text is opened")?;
    is(out.as_slice() == file, "another file is kept")
}

#[test]
fn a_file_is_opened_and_kept() -> Result<(), Fail> {
    let replica = load_packed(fallible::Global, FILE)?;
    is_kept_as(&replica, fallible::Global, FILE)
}
