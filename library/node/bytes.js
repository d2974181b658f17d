// What the package uses of Node's module `buffer`, for pages and workers.

const ENCODER = new TextEncoder();
const DECODER = new TextDecoder('utf-8', { ignoreBOM: true });
const STRICT_DECODER = new TextDecoder('utf-8', { fatal: true });
const ENCODINGS = {
    utf8: (bytes) => DECODER.decode(bytes),
    hex: (bytes) => Array.from(bytes, (byte) => byte.toString(16).padStart(2, '0')).join(''),
    latin1: (bytes) => Array.from(bytes, (byte) => String.fromCharCode(byte)).join(''),
};

// Bytes as Node's Buffer, with those of its calls that are used or that one reads bytes by.
class Bytes extends Uint8Array {
    static from(data) {
        return new Bytes(typeof data === 'string' ? ENCODER.encode(data) : data);
    }

    static concat(parts) {
        const made = new Bytes(parts.reduce((sum, part) => sum + part.length, 0));
        let at = 0;
        for (const part of parts) {
            made.set(part, at);
            at += part.length;
        }
        return made;
    }

    equals(other) {
        return this.length === other.length && this.every((byte, at) => byte === other[at]);
    }

    readUInt16LE(at) {
        return this[at] + 256 * this[at + 1];
    }

    readUInt16BE(at) {
        return 256 * this[at] + this[at + 1];
    }

    readUInt32BE(at) {
        return 65536 * this.readUInt16BE(at) + this.readUInt16BE(at + 2);
    }

    toString(encoding = 'utf8', beg = 0, end = this.length) {
        return ENCODINGS[encoding](this.subarray(beg, end));
    }
}

export function isAscii(bytes) {
    for (let at = 0; at < bytes.length; at += 1) {
        if (bytes[at] >= 0x80) return false;
    }
    return true;
}

export function isUtf8(bytes) {
    try {
        STRICT_DECODER.decode(bytes);
        return true;
    } catch {
        return false;
    }
}

export { Bytes as Buffer };
