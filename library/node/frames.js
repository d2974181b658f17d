// What texts that are far from each other send: frames, whose first byte says what follows.
//
//     1  a text's state: one that comes sends it first, and gets the other's, then what it lacks, then 3
//     2  a chunk
//     3  all that was lacking has come
//     4  who is there, as presence has it
//     5  the histories differ: JSON of the number of the refusal, the site and the first operation; nothing follows

export const STATE = 1;
export const CHUNK = 2;
export const DONE = 3;
export const PRESENCE = 4;
export const DIFFERS = 5;

export function frame(kind, bytes = new Uint8Array(0)) {
    const made = new Uint8Array(1 + bytes.length);
    made[0] = kind;
    made.set(bytes, 1);
    return made;
}

// The bytes that a socket brought, of a page or of Node's package ws.
function bytesOf(data) {
    if (data instanceof ArrayBuffer) return new Uint8Array(data);
    return data instanceof Uint8Array ? data : undefined;
}

export function unframed(data) {
    const bytes = bytesOf(data);
    return bytes === undefined || bytes.length === 0 ? { kind: 0, bytes: new Uint8Array(0) } : { kind: bytes[0], bytes: bytes.subarray(1) };
}
