// SHA-256 without waiting. WebCrypto answers later, when the tab may have been killed.

const WORDS = 64;
const BLOCK_BYTES = 64;
const TWO_32 = 2 ** 32;

/** Return the first 32 bits of the fractional part of a number. */
const fraction = (number) => Math.floor((number % 1) * TWO_32);

/** Return the first prime numbers. */
function primes(many) {
  const found = [];
  for (let one = 2; found.length < many; one += 1) if (found.every((prime) => one % prime)) found.push(one);
  return found;
}

const PRIMES = primes(WORDS);
const ROUND_WORDS = Int32Array.from(PRIMES, (prime) => fraction(Math.cbrt(prime)));
const BEGIN = PRIMES.slice(0, 8).map((prime) => fraction(Math.sqrt(prime)) | 0);

/** Return bytes with the end that makes whole blocks of them: a one bit, zeros, and the number of bits. */
function padded(bytes) {
  const whole = new Uint8Array(Math.ceil((bytes.length + 9) / BLOCK_BYTES) * BLOCK_BYTES);
  whole.set(bytes);
  whole[bytes.length] = 0x80;
  const view = new DataView(whole.buffer);
  view.setUint32(whole.length - 8, Math.floor(bytes.length / (TWO_32 / 8)));
  view.setUint32(whole.length - 4, (bytes.length * 8) % TWO_32);
  return view;
}

/** Fill in the words of a block. */
function schedule(words, view, at) {
  for (let one = 0; one < 16; one += 1) words[one] = view.getInt32(at + 4 * one);
  for (let one = 16; one < WORDS; one += 1) {
    const a = words[one - 15];
    const b = words[one - 2];
    const low = ((a >>> 7) | (a << 25)) ^ ((a >>> 18) | (a << 14)) ^ (a >>> 3);
    const high = ((b >>> 17) | (b << 15)) ^ ((b >>> 19) | (b << 13)) ^ (b >>> 10);
    words[one] = (words[one - 16] + low + words[one - 7] + high) | 0;
  }
}

/** Change a state by the words of a block. */
function compress(state, words) {
  let [a, b, c, d, e, f, g, h] = state;
  for (let one = 0; one < WORDS; one += 1) {
    const high = ((e >>> 6) | (e << 26)) ^ ((e >>> 11) | (e << 21)) ^ ((e >>> 25) | (e << 7));
    const first = (h + high + ((e & f) ^ (~e & g)) + ROUND_WORDS[one] + words[one]) | 0;
    const low = ((a >>> 2) | (a << 30)) ^ ((a >>> 13) | (a << 19)) ^ ((a >>> 22) | (a << 10));
    const second = (low + ((a & b) ^ (a & c) ^ (b & c))) | 0;
    h = g;
    g = f;
    f = e;
    e = (d + first) | 0;
    d = c;
    c = b;
    b = a;
    a = (first + second) | 0;
  }
  [a, b, c, d, e, f, g, h].forEach((one, at) => { state[at] = (state[at] + one) | 0; });
}

/** Return the SHA-256 of a text's UTF-8, in hexadecimal digits. */
export function sha256(text) {
  const view = padded(new TextEncoder().encode(text));
  const [state, words] = [Int32Array.from(BEGIN), new Int32Array(WORDS)];
  for (let at = 0; at < view.byteLength; at += BLOCK_BYTES) {
    schedule(words, view, at);
    compress(state, words);
  }
  return [...state].map((one) => (one >>> 0).toString(16).padStart(8, "0")).join("");
}
