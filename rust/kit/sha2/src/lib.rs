//! SHA-256 (FIPS 180-4), by the calls that are used here of the crate of this name.
#![forbid(unsafe_code)]

use fallible::AllocError;

const BLOCK: usize = 64;
// Where the message's length stands in its last block.
const LENGTH_AT: usize = 56;
// The first bits of the fractional parts of the square roots of the first primes, and of their cube roots.
const BEGIN: [u32; 8] = [
    0x6a09e667, 0xbb67ae85, 0x3c6ef372, 0xa54ff53a, 0x510e527f, 0x9b05688c, 0x1f83d9ab, 0x5be0cd19,
];
const ROUNDS: [u32; 64] = [
    0x428a2f98, 0x71374491, 0xb5c0fbcf, 0xe9b5dba5, 0x3956c25b, 0x59f111f1, 0x923f82a4, 0xab1c5ed5,
    0xd807aa98, 0x12835b01, 0x243185be, 0x550c7dc3, 0x72be5d74, 0x80deb1fe, 0x9bdc06a7, 0xc19bf174,
    0xe49b69c1, 0xefbe4786, 0x0fc19dc6, 0x240ca1cc, 0x2de92c6f, 0x4a7484aa, 0x5cb0a9dc, 0x76f988da,
    0x983e5152, 0xa831c66d, 0xb00327c8, 0xbf597fc7, 0xc6e00bf3, 0xd5a79147, 0x06ca6351, 0x14292967,
    0x27b70a85, 0x2e1b2138, 0x4d2c6dfc, 0x53380d13, 0x650a7354, 0x766a0abb, 0x81c2c92e, 0x92722c85,
    0xa2bfe8a1, 0xa81a664b, 0xc24b8b70, 0xc76c51a3, 0xd192e819, 0xd6990624, 0xf40e3585, 0x106aa070,
    0x19a4c116, 0x1e376c08, 0x2748774c, 0x34b0bcb5, 0x391c0cb3, 0x4ed8aa4a, 0x5b9cca4f, 0x682e6ff3,
    0x748f82ee, 0x78a5636f, 0x84c87814, 0x8cc70208, 0x90befffa, 0xa4506ceb, 0xbef9a3f7, 0xc67178f2,
];

/// A hash function: a message is added piece by piece.
pub trait Digest {
    /// The digest, as bytes.
    type Output;

    /// A hasher of the empty message.
    fn new() -> Self;

    /// Adds to the message.
    fn update<T: AsRef<[u8]>>(&mut self, data: T);

    /// The digest of the message.
    fn finalize(self) -> Self::Output;
}

/// The hash function SHA-256.
#[derive(Clone, Copy)]
pub struct Sha256 {
    state: [u32; 8],
    // The message's last bytes, which fill no block yet, and how many bytes it has.
    rest: [u8; BLOCK],
    len: u64,
}

// One round, which writes two of the eight words.
macro_rules! round {
    ($a:ident $b:ident $c:ident $d:ident $e:ident $f:ident $g:ident $h:ident, $of:expr) => {
        let s1 = $e.rotate_right(6) ^ $e.rotate_right(11) ^ $e.rotate_right(25);
        let first = $h.wrapping_add($of).wrapping_add(s1).wrapping_add($g ^ $e & ($f ^ $g));
        let s0 = $a.rotate_right(2) ^ $a.rotate_right(13) ^ $a.rotate_right(22);
        $d = $d.wrapping_add(first);
        $h = first.wrapping_add(s0).wrapping_add($a & $b | $c & ($a | $b));
    };
}

// Makes a word of the message's schedule the one that is sixteen places further on.
macro_rules! next {
    ($word:ident $first:ident $ninth:ident $fourteenth:ident) => {
        let s0 = $first.rotate_right(7) ^ $first.rotate_right(18) ^ $first >> 3;
        let s1 = $fourteenth.rotate_right(17) ^ $fourteenth.rotate_right(19) ^ $fourteenth >> 10;
        $word = $word.wrapping_add(s0).wrapping_add($ninth).wrapping_add(s1);
    };
}

// All words have names of their own, so that none is in memory: WebAssembly takes two thirds of the time then.
fn compress(state: &mut [u32; 8], block: &[u8; BLOCK]) {
    let mut words = [0; 16];
    for (word, bytes) in words.iter_mut().zip(block.chunks_exact(4)) {
        *word = u32::from_be_bytes([bytes[0], bytes[1], bytes[2], bytes[3]]);
    }
    let [mut w0, mut w1, mut w2, mut w3, mut w4, mut w5, mut w6, mut w7, ..] = words;
    let [.., mut w8, mut w9, mut w10, mut w11, mut w12, mut w13, mut w14, mut w15] = words;
    let [mut a, mut b, mut c, mut d, mut e, mut f, mut g, mut h] = *state;
    for (turn, of) in ROUNDS.chunks_exact(16).enumerate() {
        if turn > 0 {
            next!(w0 w1 w9 w14);
            next!(w1 w2 w10 w15);
            next!(w2 w3 w11 w0);
            next!(w3 w4 w12 w1);
            next!(w4 w5 w13 w2);
            next!(w5 w6 w14 w3);
            next!(w6 w7 w15 w4);
            next!(w7 w8 w0 w5);
            next!(w8 w9 w1 w6);
            next!(w9 w10 w2 w7);
            next!(w10 w11 w3 w8);
            next!(w11 w12 w4 w9);
            next!(w12 w13 w5 w10);
            next!(w13 w14 w6 w11);
            next!(w14 w15 w7 w12);
            next!(w15 w0 w8 w13);
        }
        round!(a b c d e f g h, of[0].wrapping_add(w0));
        round!(h a b c d e f g, of[1].wrapping_add(w1));
        round!(g h a b c d e f, of[2].wrapping_add(w2));
        round!(f g h a b c d e, of[3].wrapping_add(w3));
        round!(e f g h a b c d, of[4].wrapping_add(w4));
        round!(d e f g h a b c, of[5].wrapping_add(w5));
        round!(c d e f g h a b, of[6].wrapping_add(w6));
        round!(b c d e f g h a, of[7].wrapping_add(w7));
        round!(a b c d e f g h, of[8].wrapping_add(w8));
        round!(h a b c d e f g, of[9].wrapping_add(w9));
        round!(g h a b c d e f, of[10].wrapping_add(w10));
        round!(f g h a b c d e, of[11].wrapping_add(w11));
        round!(e f g h a b c d, of[12].wrapping_add(w12));
        round!(d e f g h a b c, of[13].wrapping_add(w13));
        round!(c d e f g h a b, of[14].wrapping_add(w14));
        round!(b c d e f g h a, of[15].wrapping_add(w15));
    }
    for (word, added) in state.iter_mut().zip([a, b, c, d, e, f, g, h]) {
        *word = word.wrapping_add(added);
    }
}

impl Sha256 {
    /// The same hasher again. It takes no memory.
    #[allow(clippy::should_implement_trait)]
    pub fn clone(&self) -> Result<Sha256, AllocError> {
        Ok(*self)
    }
}

impl Digest for Sha256 {
    type Output = [u8; 32];

    fn new() -> Sha256 {
        Sha256 {
            state: BEGIN,
            rest: [0; BLOCK],
            len: 0,
        }
    }

    fn update<T: AsRef<[u8]>>(&mut self, data: T) {
        let mut data = data.as_ref();
        while !data.is_empty() {
            let at = (self.len % BLOCK as u64) as usize;
            let (now, later) = data.split_at(data.len().min(BLOCK - at));
            self.rest[at..at + now.len()].copy_from_slice(now);
            self.len += now.len() as u64;
            if at + now.len() == BLOCK {
                compress(&mut self.state, &self.rest);
            }
            data = later;
        }
    }

    fn finalize(mut self) -> [u8; 32] {
        let bits = self.len.wrapping_mul(8);
        // A one and zeros, up to where the length fills a block.
        let zeros = (BLOCK + LENGTH_AT - 1 - (self.len % BLOCK as u64) as usize) % BLOCK;
        self.update([0x80]);
        self.update(&[0_u8; BLOCK][..zeros]);
        self.update(bits.to_be_bytes());
        let mut digest = [0; 32];
        for (bytes, word) in digest.chunks_exact_mut(4).zip(self.state) {
            bytes.copy_from_slice(&word.to_be_bytes());
        }
        digest
    }
}
