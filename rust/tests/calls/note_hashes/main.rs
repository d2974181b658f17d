//! Hashes: of HMAC by test cases 1 to 4 of RFC 4231, of messages by rows of the vectors that share/tests/second_form.mjs made
//! (share/tests/hash_rows.py).
use calls::is;
use fallible::{Fail, Global, Vec};
use note_entries::{Digest, Hash};
use note_hashes::{BaseKey, HmacKey, NoteKey};

const ROWS: &str = include_str!("rows.txt");
// A key, a message and its HMAC. A shorter key is the one with zeros behind it.
const CASES: [(&str, &str, &str); 4] = [
    (
        "0b0b0b0b0b0b0b0b0b0b0b0b0b0b0b0b0b0b0b0b",
        "4869205468657265",
        "b0344c61d8db38535ca8afceaf0bf12b881dc200c9833da726e9376c2e32cff7",
    ),
    (
        "4a656665",
        "7768617420646f2079612077616e7420666f72206e6f7468696e673f",
        "5bdcc146bf60754e6a042426089575c75a003f089d2739839dec58b964ec3843",
    ),
    (
        "aaaaaaaaaaaaaaaaaaaaaaaaaaaaaaaaaaaaaaaa",
        "dddddddddddddddddddddddddddddddddddddddddddddddddddddddddddddddddddddddddddddddddddddddddddddddddddd",
        "773ea91e36800e46854db8ebd09181a72959098b3ef8c122d9635514ced565fe",
    ),
    (
        "0102030405060708090a0b0c0d0e0f10111213141516171819",
        "cdcdcdcdcdcdcdcdcdcdcdcdcdcdcdcdcdcdcdcdcdcdcdcdcdcdcdcdcdcdcdcdcdcdcdcdcdcdcdcdcdcdcdcdcdcdcdcdcdcd",
        "82558a389a443c0ea4cc819899f2083a85f0faa3e578f8077a2e3ff46729665b",
    ),
];

fn bytes(digits: &str) -> Result<[u8; 32], Fail> {
    let mut bytes = [0; 32];
    hex::decode_to_slice(digits, &mut bytes[..digits.len() / 2])?;
    Ok(bytes)
}

fn hash(digits: &str) -> Result<Hash, Fail> {
    Ok(Hash::of_bytes(bytes(digits)?))
}

#[test]
fn hmac_is_that_of_the_standard() -> Result<(), Fail> {
    for (key, message, wanted) in CASES {
        let found = HmacKey::new(bytes(key)?).of(&hex::decode(Global, message)?);
        is(found == bytes(wanted)?, "another HMAC")?;
    }
    Ok(())
}

#[test]
fn a_hash_is_its_bytes() -> Result<(), Fail> {
    let of = bytes("000102030405060708090a0b0c0d0e0ff0f1f2f3f4f5f6f7f8f9fafbfcfdfeff")?;
    let (high, low) = (0x000102030405060708090a0b0c0d0e0f, 0xf0f1f2f3f4f5f6f7f8f9fafbfcfdfeff);
    is(Hash::of_bytes(of) == Hash::new(high, low), "another hash")?;
    is(Hash::new(high, low).bytes() == of, "other bytes")
}

#[test]
fn hashes_are_those_of_the_vectors() -> Result<(), Fail> {
    let (mut key, mut base) = (NoteKey::new([0; 32]), BaseKey::new([0; 32]));
    for row in ROWS.lines() {
        let words: std::vec::Vec<&str> = row.split(' ').collect();
        match words.as_slice() {
            ["note", of, copied] => (key, base) = (NoteKey::new(bytes(of)?), BaseKey::new(bytes(copied)?)),
            ["base", author, before, message, of] => {
                let op = operations::decode(Global, &hex::decode(Global, message)?)?;
                let copied = base.copied(Global, hash(author)?, hash(before)?, op)?;
                is(copied.hash == hash(of)?, "another hash in the base")?;
            }
            ["said", author, before, on, message, of] => {
                let op = operations::decode(Global, &hex::decode(Global, message)?)?;
                let on = if *on == "-" { None } else { Some(hash(on)?) };
                let said = key.saying(Global, hash(author)?, hash(before)?, op, on)?;
                is(said.hash == hash(of)?, "another hash")?;
            }
            ["digest", of, "=", hashes @ ..] => {
                let mut some = Vec::new(Global);
                for one in hashes {
                    some.push(hash(one)?)?;
                }
                is(key.of(&some) == hash(of)?, "another digest")?;
            }
            _ => return Err("no row".into()),
        }
    }
    Ok(())
}
