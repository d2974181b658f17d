// CRC-32 (of zlib and PNG).

const TABLE = Uint32Array.from({ length: 256 }, (_, byte) => {
    let sum = byte;
    for (let bit = 0; bit < 8; bit += 1) sum = (sum >>> 1) ^ (sum & 1 ? 0xedb88320 : 0);
    return sum;
});

// The sum of bytes, which goes on from that of those before them.
export function crc32(bytes, before = 0) {
    let sum = ~before;
    for (let at = 0; at < bytes.length; at += 1) sum = (sum >>> 8) ^ TABLE[(sum ^ bytes[at]) & 255];
    return ~sum >>> 0;
}
