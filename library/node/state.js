// How far a text is, as bytes that sites send one another.
//
//     tag       4  the letters OTV1
//     text      2
//     site      2  of each site that has operations, rising
//     front     4  how many
//     hash      8  of all these: BLAKE2b of the hash before (nothing at first) and the message of the last one
//
// Numbers are big-endian. So two texts see whether the operations that both have of a site are the same.
import { blake2b } from './blake2b.js';
import { BEHIND, CONFLICT, FrontsDiffer, WRONG_TEXT, failure } from './errors.js';
import { Buffer } from './host.js';

const TAG = [0x4f, 0x54, 0x56, 0x31];
const HEAD = 6, ENTRY = 14, HASH = 6, SIZE = 8;

function isSame(one, other) {
    return one.every((byte, at) => byte === other[at]);
}

function viewOf(bytes) {
    return new DataView(bytes.buffer, bytes.byteOffset, bytes.byteLength);
}

// The sites of a state, their fronts and hashes.
function entriesOf(state, text) {
    const view = viewOf(state), count = (state.length - HEAD) / ENTRY;
    const isState = state.length >= HEAD && Number.isInteger(count) && isSame(TAG, state);
    if (isState && view.getUint16(TAG.length) !== text) throw failure(WRONG_TEXT);
    const entries = Array.from({ length: isState ? count : 0 }, (_, index) => {
        const at = HEAD + ENTRY * index;
        return { site: view.getUint16(at), front: view.getUint32(at + 2), hash: state.subarray(at + HASH, at + ENTRY) };
    });
    const isRising = entries.every(({ site, front }, at) => front > 0 && site > (entries[at - 1]?.site ?? 0));
    if (!isState || !isRising) throw new TypeError('the bytes are no state of a text');
    return entries;
}

// The hashes of each site's operations, up to each of them, as the messages of a text come.
export class Digests {
    #of = new Map();

    add(message) {
        const site = message.readUInt16BE(6);
        let hashes = this.#of.get(site);
        if (hashes === undefined) this.#of.set(site, hashes = { bytes: new Uint8Array(32 * SIZE), count: 0 });
        const end = SIZE * hashes.count;
        if (end === hashes.bytes.length) {
            const { bytes } = hashes;
            hashes.bytes = new Uint8Array(2 * end);
            hashes.bytes.set(bytes);
        }
        hashes.bytes.set(blake2b(hashes.bytes.subarray(Math.max(end - SIZE, 0), end), message), end);
        hashes.count += 1;
    }

    #at(site, front) {
        return this.#of.get(site).bytes.subarray(SIZE * (front - 1), SIZE * front);
    }

    // The state of a text of this number, whose messages came up to these fronts.
    state(text, fronts) {
        const state = new Uint8Array(HEAD + ENTRY * fronts.size), view = viewOf(state);
        state.set(TAG);
        view.setUint16(TAG.length, text);
        [...fronts].forEach(([site, front], index) => {
            const at = HEAD + ENTRY * index;
            view.setUint16(at, site);
            view.setUint32(at + 2, front);
            state.set(this.#at(site, front), at + HASH);
        });
        return Buffer.from(state);
    }

    // The fronts that another text's state says, where that has no other operations than the text has that is here.
    check(state, { number, site: own }, fronts) {
        const entries = entriesOf(state, number);
        for (const { site, front, hash } of entries) {
            const here = fronts.get(site) ?? 0;
            if (front > here && site === own) throw new FrontsDiffer(BEHIND, site, here + 1);
            if (front <= here && !isSame(hash, this.#at(site, front))) throw new FrontsDiffer(CONFLICT, site, front);
        }
        return new Map(entries.map(({ site, front }) => [site, front]));
    }
}
