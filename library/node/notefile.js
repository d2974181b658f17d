// The file of a note that is open (docs/FORMATS.md, "Files of open notes"), in Node. The Python package has the same.
import { Buffer } from 'node:buffer';
import { createHash } from 'node:crypto';

import { blake2b } from './blake2b.js';
import { crc32 } from './crc32.js';
import { Damaged, MALFORMED, failure } from './errors.js';
import { LockedFile, isAllOf } from './lockedfile.js';

const TAG = Buffer.from('OTN1');
// How long the head is without its check, and with it; and what stands before a batch: its length and its check.
const SUMMED = 36, BEGIN = 40, BEFORE = 8;
const HASH = 32;
// What records are of, by their first byte; how long one of a claim is, and one of an entry without its body; how long any may be; and what
// stands before it in its batch.
const CLAIM = 1, ENTRY = 2;
const CLAIM_LENGTH = 67, ENTRY_LENGTH = 75, MOST = 65_535, LENGTH = 2;
// At how many places a whole batch is looked for behind one that isn't.
const MOST_TRIED = 4096;

function number(value, length) {
    const data = Buffer.alloc(length);
    data.writeUIntBE(value, 0, length);
    return data;
}

// What the file of a note begins with that begins so itself.
function headOf({ key, founder, number: its, baseKey, root, base }) {
    const chunks = base.flatMap((chunk) => [number(chunk.length, 2), chunk]);
    const begun = blake2b(Buffer.concat([key, founder, number(its, 2), baseKey, root]), Buffer.concat(chunks), HASH);
    const head = Buffer.concat([TAG, begun]);
    return Buffer.concat([head, number(crc32(head), 4)]);
}

function recordOf(...parts) {
    const record = Buffer.concat(parts);
    if (record.length > MOST) throw failure(MALFORMED);
    return record;
}

function batchOf(records) {
    const batch = Buffer.concat(records.flatMap((record) => [number(record.length, LENGTH), record])), length = number(batch.length, 4);
    return Buffer.concat([length, number(crc32(batch, crc32(length)), 4), batch]);
}

// The batch that begins here, if a whole one does.
function wholeAt(data, at) {
    if (data.length < at + BEFORE) return undefined;
    const length = data.readUInt32BE(at), batch = data.subarray(at + BEFORE, at + BEFORE + length);
    if (length === 0 || length !== batch.length) return undefined;
    return data.readUInt32BE(at + 4) === crc32(batch, crc32(data.subarray(at, at + 4))) ? batch : undefined;
}

function wholeFrom(data) {
    const found = [];
    for (let at = BEGIN, batch; (batch = wholeAt(data, at)) !== undefined; at += BEFORE + batch.length) found.push(batch);
    return found;
}

// Where these batches end.
function endOf(batches) {
    return batches.reduce((end, batch) => end + BEFORE + batch.length, BEGIN);
}

// The records of a batch; one that doesn't end with it is none.
function recordsIn(batch) {
    const found = [];
    for (let at = 0, end; at < batch.length; at = end) {
        end = at + LENGTH + (at + LENGTH <= batch.length ? batch.readUInt16BE(at) : 0);
        found.push(end <= batch.length ? batch.subarray(at + LENGTH, end) : batch.subarray(at, at));
    }
    return found;
}

// Whether a batch may be here, but for its check.
function mayBegin(data, at) {
    const beg = at + BEFORE, kind = data[beg + LENGTH], length = data.readUInt32BE(at);
    return (kind === CLAIM || kind === ENTRY) && length >= LENGTH + data.readUInt16BE(beg) && length <= data.length - beg;
}

// Whether this isn't what is left of one batch: it is longer than that says, or a whole one comes later.
function hasMore(torn) {
    const length = torn.length < BEFORE ? 0 : torn.readUInt32BE(0);
    if (length > 0 && length < torn.length - BEFORE) return true;
    for (let at = 1, tried = 0; at < torn.length - BEFORE - LENGTH && tried < MOST_TRIED; at += 1) {
        if (!mayBegin(torn, at)) continue;
        tried += 1;
        if (wholeAt(torn, at) !== undefined) return true;
    }
    return false;
}

// The claim or the entry that a record says, if it says one.
function read(said) {
    const hash = (at) => said.subarray(at, at + HASH);
    if (said[0] === CLAIM && said.length === CLAIM_LENGTH) return { author: hash(1), site: said.readUInt16BE(33), rank: hash(35) };
    if (said[0] !== ENTRY || said.length < ENTRY_LENGTH) return undefined;
    const [first, count, site, text] = [said.readUInt32BE(65), ...[69, 71, 73].map((at) => said.readUInt16BE(at))];
    return { head: { author: hash(1), before: hash(33), first, count, site, text }, body: said.subarray(ENTRY_LENGTH) };
}

function digestOf(said) {
    return createHash('sha256').update(said).digest().toString('latin1', 0, 16);
}

export class NoteFile extends LockedFile {
    #head;
    // Where the last batch ends that is whole.
    #end = BEGIN;
    // Records that came since the disk kept some; and the digests of these and of what the file has.
    #gathered = /** @type {any[]} */ ([]);
    #known = new Set();

    constructor(at, founding) {
        const head = headOf(founding);
        super(at, 'note', true);
        this.#head = head;
    }

    // The claims and entries that it has. One that has nothing yet is begun.
    records() {
        // (a program that was killed may have written some and not waited for the disk)
        this.sync();
        const data = this.contents();
        if (data.length < BEGIN && isAllOf(data, this.#head)) {
            this.writeAt(0, this.#head);
            return [];
        }
        this.#refuseOthers(data);
        const batches = wholeFrom(data), found = batches.flatMap(recordsIn);
        this.#end = endOf(batches);
        if (hasMore(data.subarray(this.#end))) {
            throw new Damaged(`${this.path} was changed at byte ${this.#end} or behind it, and has more after that`);
        }
        const records = found.map(read);
        if (records.includes(undefined)) throw new Damaged(`${this.path} has a record that is neither a claim nor an entry`);
        found.forEach((said) => this.#known.add(digestOf(said)));
        return records;
    }

    #refuseOthers(data) {
        if (!isAllOf(data.subarray(0, TAG.length), TAG)) throw new Damaged(`${this.path} isn't the file of a note`);
        if (data.length < BEGIN || data.readUInt32BE(SUMMED) !== crc32(data.subarray(0, SUMMED))) {
            throw new Damaged(`${this.path} was changed, or cut off, before byte ${BEGIN}`);
        }
        if (!isAllOf(this.#head, data)) throw new RangeError(`${this.path} is of another note`);
    }

    claimOf(author, site, rank) {
        return recordOf(number(CLAIM, 1), author, number(site, 2), rank);
    }

    // (a body that is longer than a record may be is none of an entry)
    entryOf({ author, before, first, count, site, text }, body) {
        return recordOf(number(ENTRY, 1), author, before, number(first, 4), number(count, 2), number(site, 2), number(text, 2), body);
    }

    // A record is to be kept, unless it is already.
    gather(record) {
        const digest = digestOf(record);
        if (!this.#known.has(digest)) this.#gathered.push(record);
        this.#known.add(digest);
    }

    // Has the disk keep what was gathered, and these entries, as one batch. Where this throws, the file has what it had before.
    keep(entries) {
        const own = entries.map(({ head, body }) => this.entryOf(head, body)).filter((record) => !this.#known.has(digestOf(record)));
        const records = [...this.#gathered, ...own];
        if (records.length === 0) return;
        const data = batchOf(records);
        this.writeAt(this.#end, data);
        this.#end += data.length;
        this.#gathered = [];
        own.forEach((record) => this.#known.add(digestOf(record)));
    }

    // The entries of messages that it has.
    entries() {
        const batches = wholeFrom(this.contents().subarray(0, this.#end));
        if (endOf(batches) !== this.#end) throw new Damaged(`${this.path} was changed while it was open`);
        return batches.flatMap(recordsIn).filter(([kind]) => kind === ENTRY).map(read);
    }
}
