// The file of a text that is open (docs/FORMATS.md, "Files of open texts"), in Node. The Python package has the same.
import { Buffer } from 'node:buffer';

import { crc32 } from './crc32.js';
import { Damaged } from './errors.js';
import { LockedFile, isAllOf } from './lockedfile.js';

const TAG = Buffer.from('OTJ1');
// How long the head is, and what stands before an entry's chunks.
const BEGIN = 20, ENTRY = 8;
// What the chunks of an entry begin with, and where that is.
const CHUNK = 'OTC1', CHUNK_AT = ENTRY + 2;
// At how many places a whole entry is looked for behind one that isn't.
const MOST_TRIED = 4096;

function headOf(text, site, history) {
    const head = Buffer.alloc(BEGIN);
    TAG.copy(head);
    head.writeUInt16BE(text, 4);
    head.writeUInt16BE(site, 6);
    head.writeUInt32BE(history.length, 8);
    head.writeUInt32BE(crc32(history), 12);
    head.writeUInt32BE(crc32(head.subarray(0, 16)), 16);
    return head;
}

export class Journal extends LockedFile {
    // A journal that is shorter isn't worth a new file.
    static LEAST = 65536;

    #text = 0;
    #site = 0;
    // Where the history ends, and the last entry that is whole.
    #historyEnd = 0;
    #end = 0;
    // How long a journal is left as it is.
    #most = Journal.LEAST;

    constructor(at, mayBeMade) {
        super(at, 'text', mayBeMade);
        // What stands behind the last entry that is whole: the next one takes its place.
        this.torn = Buffer.alloc(0);
    }

    // Begins a file that has nothing yet.
    begin(text, site) {
        this.#has(text, site, Buffer.alloc(0));
        this.writeAt(0, headOf(text, site, Buffer.alloc(0)));
    }

    #has(text, site, history) {
        [this.#text, this.#site] = [text, site];
        this.#historyEnd = this.#end = BEGIN + history.length;
        this.#most = Math.max(history.length, Journal.LEAST);
    }

    // What the file has; nothing where none was begun.
    read() {
        const data = this.contents();
        if (data.length < BEGIN && isAllOf(data.subarray(0, TAG.length), TAG)) return undefined;
        if (data.length < BEGIN || !isAllOf(TAG, data)) throw new Damaged(`${this.path} isn't the file of a text`);
        const [text, site, length] = [data.readUInt16BE(4), data.readUInt16BE(6), data.readUInt32BE(8)];
        const history = data.subarray(BEGIN, BEGIN + length);
        if (!isAllOf(headOf(text, site, history), data)) {
            throw new Damaged(`${this.path} was changed, or cut off, before byte ${BEGIN + length}`);
        }
        this.#has(text, site, history);
        return { text, site, history, entries: this.#entries(data) };
    }

    #entries(data) {
        const found = [];
        for (let entry; (entry = this.#entry(data, this.#end)) !== undefined; this.#end += ENTRY + entry.length) found.push(entry);
        this.torn = data.subarray(this.#end);
        if (this.#hasMore(this.torn)) throw new Damaged(`${this.path} was changed at byte ${this.#end} or behind it, and has more after that`);
        return found;
    }

    // Whether this isn't what is left of one entry: it is longer than that says, or a whole one comes later.
    #hasMore(torn) {
        const begin = Buffer.alloc(ENTRY);
        torn.copy(begin);
        const length = begin.readUInt32BE(0);
        if (length > 0 && length < torn.length - ENTRY) return true;
        let at = 0;
        for (let tried = 0; tried < MOST_TRIED; tried += 1) {
            at = torn.indexOf(CHUNK, at + CHUNK_AT + 1) - CHUNK_AT;
            if (at < 0) return false;
            if (this.#entry(torn, at) !== undefined) return true;
        }
        return false;
    }

    // The chunks of the entry that begins here, if a whole one does.
    #entry(data, at) {
        if (data.length < at + ENTRY) return undefined;
        const length = data.readUInt32BE(at), chunks = data.subarray(at + ENTRY, at + ENTRY + length);
        return length > 0 && length === chunks.length && data.readUInt32BE(at + 4) === this.#check(chunks) ? chunks : undefined;
    }

    #check(chunks) {
        const summed = Buffer.alloc(8);
        summed.writeUInt16BE(this.#text, 0);
        summed.writeUInt16BE(this.#site, 2);
        summed.writeUInt32BE(chunks.length, 4);
        return crc32(chunks, crc32(summed));
    }

    // Adds an entry. Where this throws, the file has what it had before.
    append(chunks) {
        const entry = Buffer.alloc(ENTRY + chunks.length);
        entry.writeUInt32BE(chunks.length, 0);
        entry.writeUInt32BE(this.#check(chunks), 4);
        entry.set(chunks, ENTRY);
        this.writeAt(this.#end, entry);
        this.#end += entry.length;
        this.torn = Buffer.alloc(0);
    }

    // Whether a new file is worth it.
    get hasGrown() {
        return this.#end - this.#historyEnd > this.#most;
    }

    // Puts a file that has this history alone in place of this one; where that can't be done now, this one goes on.
    rewrite(history) {
        try {
            this.replaceBy(Buffer.concat([headOf(this.#text, this.#site, history), history]));
        } catch (why) {
            if (why.code === undefined) throw why;
            this.#most = 2 * (this.#end - this.#historyEnd);
            return;
        }
        this.#has(this.#text, this.#site, history);
    }
}
