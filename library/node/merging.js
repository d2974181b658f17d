// Chunks that become fewer, of which nothing is in two, without a text (docs/FORMATS.md, "Packed histories"). The Python package has the same.
import { CONFLICT, Refused, WRONG_TEXT } from './errors.js';
import * as given from './given.js';
import { Buffer } from './host.js';

const MALFORMED = 1, BAD_OFFSET = 4;
const TAG = [0x4f, 0x54, 0x43, 0x31], HEAD = 6, MOST = 16000;
const PLAIN = Uint8Array.from('\x10Oberon10.Scn.Fnt\x01\x00', (letter) => letter.charCodeAt(0));
// What isn't as expected, and what an operation does.
const OTHER_SITE = 1, LATER = 2, LOOKS = 3, NEAR = 4, FAR = 5;
const LONG = 6, DELETE_SET = 7, DELETE_ONE = 8, CHANGE = 0x0b, RESTORE = 0x0c, ESCAPE = 0x0e, NEW_SITE = 0x0f;
const FONT = 1, COLOUR = 2, OFFSET = 4;

/** A site and an offset; null is the root.
 * @typedef {{ site: number, offset: number } | null} Place */
/** An operation, and the length of its site's file before it. An insertion has looks and a length; it and a deletion of one character have a
 * place; those that move the site's caret have where to; `body` is what is spelled behind that, and `names` the last of each stretch.
 * @typedef {{ site: number, seq: number, stamp: number, at: number, looks?: Uint8Array, length: number, place?: Place, caret?: Place,
 *     body: Uint8Array, names: { site: number, offset: number }[] }} Operation */

const isSamePlace = (one, other) => one?.site === other?.site && one?.offset === other?.offset;
const isSameBytes = (one, other) => one?.length === other?.length && (one === undefined || one.every((byte, at) => byte === other[at]));

/** @type {(one: Operation, other: Operation) => boolean} */
function isSame(one, other) {
    return one.stamp === other.stamp && one.at === other.at && (one.place === undefined) === (other.place === undefined) &&
        isSamePlace(one.place, other.place) && isSameBytes(one.looks, other.looks) && isSameBytes(one.body, other.body);
}

/** @type {(place: { site: number, offset: number }) => Place} */
const before = ({ site, offset }) => (offset > 0 ? { site, offset: offset - 1 } : null);

// What the next operation of a site is expected to have.
class Expected {
    looks = PLAIN;
    /** @type {Place} */
    caret = null;

    constructor(seq, stamp, at) {
        this.seq = seq;
        this.stamp = stamp;
        this.at = at;
    }

    /** @type {(it: Operation) => void} */
    after(it) {
        this.seq = it.seq + 1;
        this.stamp = it.stamp + 1;
        this.at = it.at + it.length;
        this.looks = it.looks ?? this.looks;
        if (it.caret !== undefined) this.caret = it.caret;
    }
}

// Reads a chunk. What it says isn't judged: the text does that which gets it.
class Reader {
    #chunk;
    #at = HEAD;
    /** @type {Map<number, Expected>} */
    #known = new Map();

    constructor(chunk) {
        if (chunk.length < HEAD || chunk.length > MOST || TAG.some((byte, at) => byte !== chunk[at])) throw new Refused(MALFORMED);
        this.#chunk = chunk;
        this.text = 256 * chunk[4] + chunk[5];
    }

    #take(length) {
        const beg = this.#at;
        this.#at += length;
        if (this.#at > this.#chunk.length) throw new Refused(MALFORMED);
        return this.#chunk.subarray(beg, this.#at);
    }

    #byte() {
        return this.#take(1)[0];
    }

    #number() {
        let number = 0;
        for (let sevens = 0, factor = 1; sevens < 7; sevens += 1, factor *= 128) {
            const byte = this.#byte();
            number += (byte & 127) * factor;
            if (byte < 128) return number;
        }
        throw new Refused(MALFORMED);
    }

    #set() {
        const found = [];
        let site = 0, end = -1;
        for (let left = this.#number() + 1; left > 0; left -= 1) {
            const more = this.#number(), offset = this.#number() + (more > 0 ? 0 : end + 1), length = this.#number() + 1;
            [site, end] = [site + more, offset + length];
            found.push({ site, offset, length });
        }
        return found;
    }

    #expected(site) {
        const it = this.#known.get(site);
        if (it === undefined) throw new Refused(MALFORMED);
        return it;
    }

    /** @returns {Generator<Operation>} */
    * operations() {
        let site = 0;
        while (this.#at < this.#chunk.length) {
            let code = this.#byte();
            const isNew = code === NEW_SITE, isOther = code === OTHER_SITE, isLater = code === LATER;
            if (isNew || isOther) site = this.#number();
            if (isNew) this.#known.set(site, new Expected(this.#number(), this.#number(), this.#number()));
            else if (isOther || isLater) this.#expected(site).stamp += this.#number();
            if (isNew || isOther || isLater) code = this.#byte();
            const it = this.#operation(site, code);
            this.#expected(site).after(it);
            yield it;
        }
    }

    /** @returns {Operation} */
    #operation(site, first) {
        const { seq, stamp, at, looks: last, caret: from } = this.#expected(site);
        let code = first, looks = last, place = from;
        if (code === LOOKS) {
            const beg = this.#at;
            this.#take(this.#byte() + 2);
            looks = this.#chunk.subarray(beg, this.#at);
            code = this.#byte();
        }
        if (code === NEAR || code === FAR) {
            place = code === NEAR ? this.#near(from) : this.#far();
            code = this.#byte();
        }
        const beg = this.#at - 1, numbers = { site, seq, stamp, at };
        if (code === DELETE_SET || code === CHANGE || code === RESTORE) return this.#ofNames(code, beg, numbers);
        const names = place === null ? [] : [place];
        if (code === DELETE_ONE && place !== null) {
            return { ...numbers, length: 0, place, caret: before(place), body: this.#chunk.subarray(beg, this.#at), names };
        }
        const length = this.#inserted(code), body = this.#chunk.subarray(beg, this.#at);
        return { ...numbers, looks, length, place, caret: { site, offset: at + length - 1 }, body, names };
    }

    #near(caret) {
        const number = this.#number();
        if (caret === null) throw new Refused(MALFORMED);
        return { site: caret.site, offset: caret.offset + (number % 2 === 0 ? number / 2 : -(number + 1) / 2) };
    }

    #far() {
        const site = this.#number();
        return site > 0 ? { site, offset: this.#number() } : null;
    }

    /** @returns {Operation} */
    #ofNames(code, beg, numbers) {
        if (code === CHANGE) {
            const selected = this.#byte();
            this.#take(((selected & FONT) > 0 ? this.#byte() : 0) + Number((selected & COLOUR) > 0) + Number((selected & OFFSET) > 0));
        }
        const ranges = this.#set();
        const names = ranges.map(({ site, offset, length }) => ({ site, offset: offset + length - 1 }));
        const caret = code === DELETE_SET ? before(ranges[0]) : undefined;
        return { ...numbers, length: 0, caret, body: this.#chunk.subarray(beg, this.#at), names };
    }

    #inserted(code) {
        if (code === LONG) return this.#take(this.#number() + 2).length;
        if (code === ESCAPE) this.#byte();
        return 1;
    }
}

function varint(number) {
    const found = [];
    for (; number > 127; number = Math.floor(number / 128)) found.push((number % 128) + 128);
    return [...found, number];
}

/** @type {(place: Place, caret: Place) => number[]} */
function placed(place, caret) {
    if (isSamePlace(place, caret)) return [];
    if (place === null) return [FAR, 0];
    if (caret?.site !== place.site) return [FAR, ...varint(place.site), ...varint(place.offset)];
    const far = place.offset - caret.offset;
    return [NEAR, ...varint(far >= 0 ? 2 * far : -2 * far - 1)];
}

// Writes operations of a text as chunks.
class Writer {
    chunks = [];
    #head;
    #parts = [];
    #size = 0;
    #last = 0;
    /** @type {Map<number, Expected>} */
    #known = new Map();

    constructor(text) {
        this.#head = Uint8Array.from([...TAG, text >> 8, text & 255]);
        this.#begin();
    }

    #begin() {
        [this.#parts, this.#size, this.#last, this.#known] = [[this.#head], HEAD, 0, new Map()];
    }

    end() {
        if (this.#size > HEAD) this.chunks.push(Buffer.concat(this.#parts));
        this.#begin();
    }

    /** @type {(it: Operation) => void} */
    add(it) {
        // (within a chunk a site's operations follow one another)
        if ((this.#known.get(it.site)?.seq ?? it.seq) !== it.seq) this.end();
        let spelled = this.#spelled(it);
        if (this.#size + spelled.length + it.body.length > MOST) {
            this.end();
            spelled = this.#spelled(it);
        }
        this.#parts.push(Uint8Array.from(spelled), it.body);
        this.#size += spelled.length + it.body.length;
        /** @type {Expected} */ (this.#known.get(it.site)).after(it);
        this.#last = it.site;
    }

    // What stands before its body.
    /** @type {(it: Operation) => number[]} */
    #spelled(it) {
        const begins = this.#begins(it), known = /** @type {Expected} */ (this.#known.get(it.site));
        const looks = it.looks === undefined || isSameBytes(it.looks, known.looks) ? [] : [LOOKS, ...it.looks];
        return [...begins, ...looks, ...(it.place === undefined ? [] : placed(it.place, known.caret))];
    }

    /** @type {(it: Operation) => number[]} */
    #begins(it) {
        const known = this.#known.get(it.site);
        if (known === undefined) {
            this.#known.set(it.site, new Expected(it.seq, it.stamp, it.at));
            return [NEW_SITE, ...[it.site, it.seq, it.stamp, it.at].flatMap(varint)];
        }
        const more = it.stamp - known.stamp;
        if (known.at !== it.at || more < 0) throw new Refused(BAD_OFFSET);
        if (it.site !== this.#last) return [OTHER_SITE, ...varint(it.site), ...varint(more)];
        return more > 0 ? [LATER, ...varint(more)] : [];
    }
}

// The operations of sites, the last of each first, each after those on which it builds, and those of a site together.
/** @type {(left: Map<number, Operation[]>) => Generator<Operation>} */
function* inOrder(left) {
    const isReady = (it) => it.names.every(({ site, offset }) => site === it.site || (left.get(site)?.at(-1)?.at ?? Infinity) > offset);
    const stampOf = ([, of]) => of.at(-1).stamp;
    while (left.size > 0) {
        // (the one with the least stamp, at the least site, builds on nothing that is left)
        const [site, of] = [...left].reduce((one, other) => (stampOf(other) < stampOf(one) ? other : one));
        do yield /** @type {Operation} */ (of.pop()); while (of.length > 0 && isReady(of.at(-1)));
        if (of.length === 0) left.delete(site);
    }
}

// The operations of a chunk, those of each of its sites by themselves; none where there is one site.
export function partsOf(chunk) {
    const reader = new Reader(chunk);
    /** @type {Map<number, Writer>} */
    const writers = new Map();
    for (const it of reader.operations()) {
        const writer = writers.get(it.site) ?? new Writer(reader.text);
        writers.set(it.site, writer);
        writer.add(it);
    }
    for (const writer of writers.values()) writer.end();
    return writers.size > 1 ? [...writers.values()].flatMap(({ chunks }) => chunks) : [];
}

// Chunks that have all operations of these past some fronts, each once, in an order in which a text takes them.
export function mergeChunks(chunks, past = []) {
    const fronts = new Map(past);
    /** @type {Map<number, Map<number, Operation>>} */
    const found = new Map();
    let text = 0;
    for (const chunk of chunks) {
        const reader = new Reader(given.bytes(chunk).slice());
        if (text !== 0 && text !== reader.text) throw new Refused(WRONG_TEXT);
        text = reader.text;
        for (const it of reader.operations()) {
            if (it.seq <= (fronts.get(it.site) ?? 0)) continue;
            const of = found.get(it.site) ?? new Map(), same = of.get(it.seq) ?? it;
            if (!isSame(same, it)) throw new Refused(CONFLICT);
            found.set(it.site, of.set(it.seq, same));
        }
    }
    const writer = new Writer(text);
    const left = [...found].sort(([one], [other]) => one - other)
        .map(([site, of]) => [site, [...of.values()].sort((one, other) => other.seq - one.seq)]);
    for (const it of inOrder(new Map(/** @type {any} */ (left)))) writer.add(it);
    writer.end();
    return writer.chunks;
}
