//! Numbers as bytes, by the calls that are used here of the crate of this name.
#![forbid(unsafe_code)]

/// The highest byte first.
pub struct BigEndian;

/// An order of a number's bytes.
pub trait ByteOrder {
    /// Writes a number to the first two bytes.
    fn write_u16(to: &mut [u8], number: u16);

    /// Writes a number to the first four bytes.
    fn write_u32(to: &mut [u8], number: u32);

    /// Writes a number to the first eight bytes.
    fn write_u64(to: &mut [u8], number: u64);
}

impl ByteOrder for BigEndian {
    fn write_u16(to: &mut [u8], number: u16) {
        to[..2].copy_from_slice(&number.to_be_bytes());
    }

    fn write_u32(to: &mut [u8], number: u32) {
        to[..4].copy_from_slice(&number.to_be_bytes());
    }

    fn write_u64(to: &mut [u8], number: u64) {
        to[..8].copy_from_slice(&number.to_be_bytes());
    }
}
