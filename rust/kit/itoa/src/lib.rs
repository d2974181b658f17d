//! Numbers as decimal digits, by the calls that are used here of the crate of this name.
#![forbid(unsafe_code)]

// The digits of 2^128, and a sign.
const MOST: usize = 40;

/// Where a number's digits are written.
#[derive(Clone, Copy, Debug)]
pub struct Buffer {
    bytes: [u8; MOST],
}

/// A number that can be written.
pub trait Integer: Copy {
    /// Whether it is below 0, and how far it is from 0.
    fn parts(self) -> (bool, u128);
}

macro_rules! integers {
    ($($number:ty)*) => {
        $(impl Integer for $number {
            #[allow(unused_comparisons)]
            fn parts(self) -> (bool, u128) {
                (self < 0, self.abs_diff(0) as u128)
            }
        })*
    };
}

integers!(i8 i16 i32 i64 u8 u16 u32 u64 u128 usize);

impl Buffer {
    /// Room for one number.
    pub const fn new() -> Buffer {
        Buffer { bytes: [0; MOST] }
    }

    /// A number's digits, behind a sign where it is below 0.
    pub fn format<I: Integer>(&mut self, number: I) -> &str {
        let (is_below, mut left) = number.parts();
        let mut at = MOST;
        loop {
            at -= 1;
            self.bytes[at] = b'0' + (left % 10) as u8;
            left /= 10;
            if left == 0 {
                break;
            }
        }
        if is_below {
            at -= 1;
            self.bytes[at] = b'-';
        }
        std::str::from_utf8(&self.bytes[at..]).unwrap_or("")
    }
}

impl Default for Buffer {
    fn default() -> Buffer {
        Buffer::new()
    }
}
