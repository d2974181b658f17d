// BLAKE2b (RFC 7693) without a key. Words of 64 bits are two of 32, the low one first.

const BLOCK = 128;
const ROUNDS = 12;
const IV = [
    0xf3bcc908, 0x6a09e667, 0x84caa73b, 0xbb67ae85, 0xfe94f82b, 0x3c6ef372, 0x5f1d36f1, 0xa54ff53a,
    0xade682d1, 0x510e527f, 0x2b3e6c1f, 0x9b05688c, 0xfb41bd6b, 0x1f83d9ab, 0x137e2179, 0x5be0cd19,
];
const HIGH = 2 ** 32;
// The order of a block's words in each round, by where their low halves are.
const ORDERS = [
    [0, 1, 2, 3, 4, 5, 6, 7, 8, 9, 10, 11, 12, 13, 14, 15], [14, 10, 4, 8, 9, 15, 13, 6, 1, 12, 0, 2, 11, 7, 5, 3],
    [11, 8, 12, 0, 5, 2, 15, 13, 10, 14, 3, 6, 7, 1, 9, 4], [7, 9, 3, 1, 13, 12, 11, 14, 2, 6, 5, 10, 4, 0, 15, 8],
    [9, 0, 5, 7, 2, 4, 10, 15, 14, 1, 11, 12, 6, 8, 3, 13], [2, 12, 6, 10, 0, 11, 8, 3, 4, 13, 7, 5, 15, 14, 1, 9],
    [12, 5, 1, 15, 14, 13, 4, 10, 0, 7, 6, 3, 9, 2, 8, 11], [13, 11, 7, 14, 12, 1, 3, 9, 5, 0, 15, 4, 8, 6, 2, 10],
    [6, 15, 14, 9, 11, 3, 0, 8, 12, 2, 13, 7, 1, 4, 10, 5], [10, 2, 8, 4, 7, 6, 1, 5, 15, 11, 9, 14, 3, 12, 13, 0],
].map((order) => Uint8Array.from(order, (word) => 2 * word));

const v = new Uint32Array(32), m = new Uint32Array(32), h = new Uint32Array(16), block = new Uint8Array(BLOCK);
const words = new DataView(block.buffer);

// Mixes four words, which stand at these places, with two of the block.
function mix(a, b, c, d, x, y) {
    let al = v[a], ah = v[a + 1], bl = v[b], bh = v[b + 1], cl = v[c], ch = v[c + 1], dl = v[d], dh = v[d + 1];
    let low = al + bl + m[x], other;
    ah = (ah + bh + m[x + 1] + Math.trunc(low / HIGH)) >>> 0;
    al = low >>> 0;
    other = dl ^ al;
    dl = (dh ^ ah) >>> 0;
    dh = other >>> 0;
    low = cl + dl;
    ch = (ch + dh + Math.trunc(low / HIGH)) >>> 0;
    cl = low >>> 0;
    low = bl ^ cl;
    other = bh ^ ch;
    bl = ((low >>> 24) | (other << 8)) >>> 0;
    bh = ((other >>> 24) | (low << 8)) >>> 0;
    low = al + bl + m[y];
    ah = (ah + bh + m[y + 1] + Math.trunc(low / HIGH)) >>> 0;
    al = low >>> 0;
    low = dl ^ al;
    other = dh ^ ah;
    dl = ((low >>> 16) | (other << 16)) >>> 0;
    dh = ((other >>> 16) | (low << 16)) >>> 0;
    low = cl + dl;
    ch = (ch + dh + Math.trunc(low / HIGH)) >>> 0;
    cl = low >>> 0;
    low = bl ^ cl;
    other = bh ^ ch;
    v[a] = al;
    v[a + 1] = ah;
    v[b] = (other >>> 31) | (low << 1);
    v[b + 1] = (low >>> 31) | (other << 1);
    v[c] = cl;
    v[c + 1] = ch;
    v[d] = dl;
    v[d + 1] = dh;
}

// The columns, and then the diagonals.
function mixAll(order) {
    for (let at = 0; at < 8; at += 2) mix(at, 8 + at, 16 + at, 24 + at, order[at], order[at + 1]);
    for (let at = 0; at < 8; at += 2) {
        mix(at, 8 + (at + 2) % 8, 16 + (at + 4) % 8, 24 + (at + 6) % 8, order[8 + at], order[9 + at]);
    }
}

// Takes the block in, up to which there are so many bytes.
function compress(length, isLast) {
    v.set(h);
    v.set(IV, 16);
    v[24] ^= length;
    if (isLast) {
        v[28] = ~v[28];
        v[29] = ~v[29];
    }
    for (let word = 0; word < 32; word += 1) m[word] = words.getUint32(4 * word, true);
    for (let round = 0; round < ROUNDS; round += 1) mixAll(ORDERS[round % ORDERS.length]);
    for (let word = 0; word < 16; word += 1) h[word] ^= v[word] ^ v[word + 16];
}

// The hash of two parts, one after the other, of less than 2^32 bytes; it has `size` bytes, which are whole words of 32 bits.
export function blake2b(first, second, size = 8) {
    const length = first.length + second.length;
    const data = new Uint8Array(length);
    data.set(first);
    data.set(second, first.length);
    h.set(IV);
    h[0] ^= 0x01010000 ^ size;
    let at = 0;
    do {
        const end = Math.min(at + BLOCK, length);
        block.fill(0);
        block.set(data.subarray(at, end));
        compress(end, end === length);
        at = end;
    } while (at < length);
    return new Uint8Array(new Uint32Array(h.subarray(0, size / 4)).buffer);
}
