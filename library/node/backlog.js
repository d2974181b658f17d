// What comes before what it builds on is kept, and taken in once that is there. (A text lets 64 operations wait itself.)
import { Refused } from './errors.js';
import * as given from './given.js';
import { partsOf } from './merging.js';

const MOST = 2 ** 26;
const ROOM_FULL = 'ROOM_FULL';
const CHUNK = 'OTC1';
// Where a message has its site and number; where a chunk has those of its first operation, as two varints after a byte.
const SITE = 6, SEQ = 8, FIRST = 7;

function numberAt(bytes, at) {
    let number = 0;
    for (let factor = 1; at < bytes.length; factor *= 128) {
        number += (bytes[at] & 127) * factor;
        at += 1;
        if (bytes[at - 1] < 128) break;
    }
    return [number, at];
}

const isChunk = (bytes) => CHUNK.split('').every((letter, at) => bytes[at] === letter.charCodeAt(0));

// The operation that a chunk, or a message, begins with.
function firstOf(bytes) {
    const view = new DataView(bytes.buffer, bytes.byteOffset, bytes.byteLength);
    if (!isChunk(bytes)) return bytes.length < SEQ + 4 ? { site: 0, seq: 0 } : { site: view.getUint16(SITE), seq: view.getUint32(SEQ) };
    const [site, at] = numberAt(bytes, FIRST);
    return { site, seq: numberAt(bytes, at)[0] };
}

function isSame(one, other) {
    return one.length === other.length && one.every((byte, at) => byte === other[at]);
}

// What a text takes in, in whatever order it comes. All that others made comes by way of it.
export class Backlog {
    #text;
    #most;
    // What is kept, each with its first operation.
    #kept = [];
    #size = 0;

    constructor(text, { most = MOST } = {}) {
        this.#text = text;
        this.#most = most;
    }

    // How many chunks and messages are kept.
    get length() {
        return this.#kept.length;
    }

    #isEarly({ site, seq }) {
        return site > 0 && site < 65536 && this.#text.front(site) + 1 < seq;
    }

    #count() {
        return [...this.#text.fronts().values()].reduce((sum, seq) => sum + seq, 0);
    }

    #took(message) {
        const { kind, drained } = this.#text.take(message);
        return drained + Number(kind === 'taken');
    }

    #unpacked(chunk) {
        const before = this.#count();
        try {
            this.#text.unpack(chunk);
        } catch (why) {
            if (why.code !== ROOM_FULL) throw why;
        }
        return this.#count() - before;
    }

    // Takes in what is ready of a chunk or a message, up to 64 that aren't. Answers how many were taken in, and whether some aren't ready.
    #done(bytes) {
        const taken = isChunk(bytes) ? this.#unpacked(bytes) : this.#took(bytes);
        return { taken, isDone: this.#text.forget() === 0 };
    }

    // The same, whatever stands before what is ready, and keeps it where something of it isn't, which comes again from here.
    #handed(it) {
        let { taken, isDone } = this.#isEarly(it.first) ? { taken: 0, isDone: false } : this.#done(it.bytes);
        if (isDone) return taken;
        it.parts ??= isChunk(it.bytes) ? partsOf(it.bytes).map((bytes) => ({ bytes, first: firstOf(bytes) })) : [];
        for (const { bytes, first } of it.parts) if (!this.#isEarly(first)) taken += this.#done(bytes).taken;
        this.#keep(it);
        return taken;
    }

    #keep(it) {
        if (this.#kept.some(({ bytes }) => isSame(bytes, it.bytes))) return;
        const size = [it, ...it.parts].reduce((sum, { bytes }) => sum + bytes.length, 0);
        if (this.#size + size > this.#most) throw new RangeError('too much came too early, and no more is kept');
        this.#kept.push(it);
        this.#size += size;
    }

    // Hands in again what is kept, as long as that brings something.
    #retried(refused) {
        let all = 0;
        for (let taken = 1; taken > 0; all += taken) {
            taken = 0;
            const kept = this.#kept.sort(({ first: one }, { first: other }) => one.site - other.site || one.seq - other.seq);
            [this.#kept, this.#size] = [[], 0];
            for (const it of kept) {
                try {
                    taken += this.#handed(it);
                } catch (why) {
                    if (!(why instanceof Refused)) throw why;
                    refused.push(why);
                }
            }
        }
        return all;
    }

    // Takes a chunk or a message in, and what it makes ready of what is kept. Answers how many operations were taken in, how much is kept
    // then, and the refusals of what was kept before.
    take(bytes) {
        const refused = [];
        const copy = given.bytes(bytes).slice();
        let taken = this.#handed({ bytes: copy, first: firstOf(copy) });
        if (taken > 0 && this.#kept.length > 0) taken += this.#retried(refused);
        return { taken, kept: this.#kept.length, refused };
    }
}
