//! Bytes as hex digits, by the calls that are used here of the crate of this name.
#![forbid(unsafe_code)]

use fallible::{Global, Vec};

/// The room has another length than twice that of the bytes, a byte is no digit, or memory was refused.
#[derive(Clone, Copy, Debug, PartialEq, Eq)]
pub struct FromHexError;

const DIGITS: &[u8; 16] = b"0123456789abcdef";

/// Writes two digits for each byte.
pub fn encode_to_slice<T: AsRef<[u8]>>(bytes: T, to: &mut [u8]) -> Result<(), FromHexError> {
    let bytes = bytes.as_ref();
    if to.len() != 2 * bytes.len() {
        return Err(FromHexError);
    }
    for (pair, byte) in to.chunks_exact_mut(2).zip(bytes) {
        pair[0] = DIGITS[usize::from(byte >> 4)];
        pair[1] = DIGITS[usize::from(byte & 15)];
    }
    Ok(())
}

fn value(digit: u8) -> Result<u8, FromHexError> {
    match digit {
        b'0'..=b'9' => Ok(digit - b'0'),
        b'a'..=b'f' => Ok(digit - b'a' + 10),
        b'A'..=b'F' => Ok(digit - b'A' + 10),
        _ => Err(FromHexError),
    }
}

/// Reads a byte from each two digits.
pub fn decode_to_slice<T: AsRef<[u8]>>(digits: T, to: &mut [u8]) -> Result<(), FromHexError> {
    let digits = digits.as_ref();
    if digits.len() != 2 * to.len() {
        return Err(FromHexError);
    }
    for (byte, pair) in to.iter_mut().zip(digits.chunks_exact(2)) {
        *byte = value(pair[0])? << 4 | value(pair[1])?;
    }
    Ok(())
}

/// The bytes that two digits each spell.
pub fn decode<T: AsRef<[u8]>>(alloc: Global, digits: T) -> Result<Vec<u8>, FromHexError> {
    let digits = digits.as_ref();
    let mut bytes = fallible::vec![alloc; 0; digits.len() / 2].map_err(|_| FromHexError)?;
    decode_to_slice(digits, &mut bytes)?;
    Ok(bytes)
}
