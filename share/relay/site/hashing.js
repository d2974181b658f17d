// SHA-512 of what fits into one block, over and over: WebCrypto takes most of its time to hand each one over. What is found by it is
// checked by WebCrypto.

const [ROUNDS, MOST_BYTES, TWO_32] = [80, 111, 2 ** 32];

/** The first 64 bits behind the point of roots of the first primes, as two halves each.
 * @param {bigint} power 2 or 3 @param {number} many */
function roots(power, many) {
  const halves = new Int32Array(2 * many);
  for (let prime = 2, at = 0; at < many; prime += 1) {
    if (isPrime(prime)) {
      const bits = root(BigInt(prime) << (64n * power), power) & (2n ** 64n - 1n);
      halves[2 * at] = Number(bits >> 32n);
      halves[2 * at + 1] = Number(BigInt.asIntN(32, bits));
      at += 1;
    }
  }
  return halves;
}

/** @param {number} number */
function isPrime(number) {
  for (let one = 2; one * one <= number; one += 1) if (number % one === 0) return false;
  return true;
}

/** The greatest number whose power is at most this.
 * @param {bigint} value @param {bigint} power */
function root(value, power) {
  let found = 0n;
  for (let bit = 1n << 70n; bit; bit >>= 1n) if ((found + bit) ** power <= value) found += bit;
  return found;
}

const [BEGIN, K] = [roots(2n, 8), roots(3n, ROUNDS)];
const W = new Int32Array(2 * ROUNDS);

/** Puts the first two words of the hash of a block somewhere.
 * @param {DataView} block @param {Int32Array} to */
export function hashed(block, to) {
  for (let at = 0; at < 32; at += 1) W[at] = block.getInt32(4 * at);
  for (let at = 32; at < 2 * ROUNDS; at += 2) {
    let high = W[at - 30];
    let low = W[at - 29];
    const s0h = ((high >>> 1) | (low << 31)) ^ ((high >>> 8) | (low << 24)) ^ (high >>> 7);
    const s0l = ((low >>> 1) | (high << 31)) ^ ((low >>> 8) | (high << 24)) ^ ((low >>> 7) | (high << 25));
    high = W[at - 4];
    low = W[at - 3];
    const s1h = ((high >>> 19) | (low << 13)) ^ ((low >>> 29) | (high << 3)) ^ (high >>> 6);
    const s1l = ((low >>> 19) | (high << 13)) ^ ((high >>> 29) | (low << 3)) ^ ((low >>> 6) | (high << 26));
    const sum = (s0l >>> 0) + (s1l >>> 0) + (W[at - 13] >>> 0) + (W[at - 31] >>> 0);
    W[at + 1] = sum;
    W[at] = s0h + s1h + W[at - 14] + W[at - 32] + ((sum / TWO_32) | 0);
  }
  let [ah, al, bh, bl, ch, cl, dh, dl, eh, el, fh, fl, gh, gl, hh, hl] = BEGIN;
  for (let at = 0; at < 2 * ROUNDS; at += 2) {
    const b1h = ((eh >>> 14) | (el << 18)) ^ ((eh >>> 18) | (el << 14)) ^ ((el >>> 9) | (eh << 23));
    const b1l = ((el >>> 14) | (eh << 18)) ^ ((el >>> 18) | (eh << 14)) ^ ((eh >>> 9) | (el << 23));
    const t1 = (hl >>> 0) + (b1l >>> 0) + (((el & fl) ^ (~el & gl)) >>> 0) + (K[at + 1] >>> 0) + (W[at + 1] >>> 0);
    const t1h = (hh + b1h + ((eh & fh) ^ (~eh & gh)) + K[at] + W[at] + ((t1 / TWO_32) | 0)) | 0;
    const t1l = t1 | 0;
    const b0h = ((ah >>> 28) | (al << 4)) ^ ((al >>> 2) | (ah << 30)) ^ ((al >>> 7) | (ah << 25));
    const b0l = ((al >>> 28) | (ah << 4)) ^ ((ah >>> 2) | (al << 30)) ^ ((ah >>> 7) | (al << 25));
    const t2 = (b0l >>> 0) + (((al & bl) ^ (al & cl) ^ (bl & cl)) >>> 0);
    const t2h = (b0h + ((ah & bh) ^ (ah & ch) ^ (bh & ch)) + ((t2 / TWO_32) | 0)) | 0;
    hh = gh;
    hl = gl;
    gh = fh;
    gl = fl;
    fh = eh;
    fl = el;
    let low = (dl >>> 0) + (t1l >>> 0);
    eh = (dh + t1h + ((low / TWO_32) | 0)) | 0;
    el = low | 0;
    dh = ch;
    dl = cl;
    ch = bh;
    cl = bl;
    bh = ah;
    bl = al;
    low = (t1l >>> 0) + (t2 >>> 0);
    ah = (t1h + t2h + ((low / TWO_32) | 0)) | 0;
    al = low | 0;
  }
  const low = (al >>> 0) + (BEGIN[1] >>> 0);
  to[0] = ah + BEGIN[0] + ((low / TWO_32) | 0);
  to[1] = low;
}

/** A block of these bytes, which may be changed in it, with its padding.
 * @param {Uint8Array} bytes */
export function blockOf(bytes) {
  if (bytes.length > MOST_BYTES) throw new RangeError("These bytes don't fit into one block.");
  const padded = new Uint8Array(128);
  padded.set(bytes);
  padded[bytes.length] = 0x80;
  const view = new DataView(padded.buffer);
  view.setUint32(124, bytes.length * 8);
  return view;
}
