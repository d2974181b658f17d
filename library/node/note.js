// Notes that several people edit: 16 texts each, which show what counts of the note's entries.
import { DEFAULT_LOOKS, DELETE, INSERT } from './delta.js';
import { NO_MESSAGE, NO_NUMBER, damage, failure } from './errors.js';
import * as given from './given.js';
import { Buffer, NoteFile, calls } from './host.js';
import { Shown, byteOf, changesFor, done, opened, positionsOf, Past } from './text.js';

const TEXTS = 16;
const HASH = 32;
const MOST = 65535;
const ZEROS = new Uint8Array(HASH);
const DISPOSE = Symbol.dispose ?? Symbol.for('Symbol.dispose');

function hash(data) {
    if (given.bytes(data).length !== HASH) throw new RangeError(`a key or a hash has ${HASH} bytes, not ${data.length}`);
    return data;
}

function headOf(head) {
    const { author, before, first, count, site, text } = given.object(head, 'a head');
    return { author: hash(author), before: hash(before), first: given.offset(first), count: given.number(count, 0, MOST),
        site: given.site(site), text: given.number(text, 0, MOST) };
}

// What a note begins with.
function foundingOf({ key, founder, number = 0, base = [], baseKey = ZEROS, root = ZEROS }) {
    return { key: hash(key), founder: hash(founder), number: given.site(number), base: [...base], baseKey: hash(baseKey), root: hash(root) };
}

// Whether two own entries are one.
function isSame({ head, body }, { head: other, body: its }) {
    const { author, before, first, count, text } = head;
    return text === other.text && first === other.first && count === other.count && author.equals(other.author) &&
        before.equals(other.before) && body.equals(its);
}

// Chunks as one row of bytes, each behind its length.
function rowOf(chunks) {
    return Buffer.concat(chunks.flatMap((chunk) => {
        const { length } = given.bytes(chunk);
        return [new Uint8Array([length & 255, length >> 8]), chunk];
    }));
}

// The calls by which a text of a note is asked what other texts are.
function callsFor(number) {
    return {
        length: (it) => calls.noteLength(it, number),
        bytes: (it, beg, end) => calls.noteBytes(it, number, beg, end),
        look: (it, pos) => calls.noteLook(it, number, pos),
        names: (it, beg, end) => calls.noteNames(it, number, beg, end),
        find: (it, site, offset) => calls.noteFind(it, number, site, offset),
        past: (it, fronts) => calls.notePast(it, number, fronts),
        ranges(it, beg, end) {
            const names = calls.noteNames(it, number, beg, end), found = names.slice(0, 1);
            for (let at = 1; at < names.length; at += 2) {
                const [site, offset] = [names[at], names[at + 1]];
                if (found.length > 1 && found.at(-3) === site && found.at(-2) + found.at(-1) === offset) found[found.length - 1] += 1;
                else found.push(site, offset, 1);
            }
            return found;
        },
        // (the note has it)
        close: () => [0],
    };
}

// Has the changes of a text be told to one who asks, and to no other, since each would miss what the other one was told: what is answered is
// called before they are asked for.
function hearing(heard, number) {
    let hears = false;
    return () => {
        if (!hears && heard.has(number)) throw new TypeError(`another NoteText is told the changes of text ${number}: use that one`);
        hears = true;
        heard.add(number);
    };
}

// The changes of a text's bytes since this was called last: where it was begun anew, all that was told gives way to all that is.
function changesOf(handle, number, hear) {
    let told = 0;
    return () => {
        hear();
        const changes = [];
        let isAnew = false;
        for (let numbers = [0, 0, 0]; numbers.length > 2;) {
            numbers = calls.noteChanges(handle, number);
            const [refused, anew, ...triples] = numbers;
            if (refused !== 0) throw failure(refused);
            isAnew ||= anew !== 0;
            for (let i = 0; i < triples.length; i += 3) changes.push({ kind: triples[i], beg: triples[i + 1], end: triples[i + 2] });
        }
        const [before, [length]] = [told, done(calls.noteLength(handle, number))];
        told = length;
        if (!isAnew) return changes;
        return [{ kind: DELETE, beg: 0, end: before }, { kind: INSERT, beg: 0, end: length }].filter(({ end }) => end > 0);
    };
}

let handleOf, heardOf;

// A text of a note: what counts, and own edits, which are shown at once and are to be said.
export class NoteText extends Shown {
    #note;
    #number;
    #changes;

    constructor(note, number, { units = 'bytes' } = {}) {
        if (units !== 'bytes' && units !== 'utf-16') throw new TypeError(`units are bytes or utf-16, not ${units}`);
        const handle = handleOf(given.instance(note, Note)), hear = hearing(heardOf(note), given.number(number, 1, TEXTS));
        const changes = changesOf(handle, number, hear);
        super(handle, units, changes, callsFor(number), true);
        this.#note = note;
        this.#number = number;
        this.#changes = changes;
        done(calls.noteLength(handle, number));
        if (units !== 'bytes') hear();
    }

    get number() {
        return this.#number;
    }

    #edited(call, ...words) {
        done(call(handleOf(this.#note), this.#number, ...words));
    }

    #dress(beg, end, { font, colour, offset }) {
        const selected = Number(font !== undefined) + 2 * Number(colour !== undefined) + 4 * Number(offset !== undefined);
        this.#edited(calls.noteLooks, beg, end, selected, given.font(font ?? ''), given.number(colour ?? 0, 0, 255),
            given.number(offset ?? 0, -128, 127));
    }

    // Looks that aren't the default ones are an edit of their own, after it.
    insert(pos, data, looks = undefined) {
        const [byte, bytes] = [byteOf(this, pos), given.bytesOrString(data)];
        const its = looks === undefined ? undefined : { ...DEFAULT_LOOKS, ...given.looks(looks) };
        // (those that are none are refused before anything is put in)
        if (its !== undefined) this.#dress(byte, byte, its);
        this.#edited(calls.noteInsert, byte, bytes);
        if (its !== undefined) this.#dress(byte, byte + bytes.length, its);
    }

    delete(beg, end) {
        this.#edited(calls.noteDelete, byteOf(this, beg), byteOf(this, end));
    }

    changeLooks(beg, end, looks) {
        this.#dress(byteOf(this, beg), byteOf(this, end), given.looks(looks));
    }

    deleteNames(names) {
        this.#edited(calls.noteDeleteNames, given.ranges(names));
    }

    restoreNames(names) {
        this.#edited(calls.noteRestoreNames, given.ranges(names));
    }

    front(site) {
        return done(calls.noteFront(handleOf(this.#note), this.#number, given.site(site)))[0];
    }

    fronts() {
        return new Map(done(calls.noteSites(handleOf(this.#note), this.#number)).map((site) => [site, this.front(site)]));
    }

    past(fronts) {
        return new Past(this, fronts);
    }

    changes() {
        return changesFor(positionsOf(this)?.tell() ?? this.#changes());
    }
}

// A note as one site has it. It decides which messages of the entries that it is given count.
export class Note {
    #handle;
    #site;
    // Entries of own edits that `say` hasn't answered: where memory was refused they may count already, and are to be said yet.
    #made = [];
    // Those that the disk refused to keep, which are none yet, since it keeps them first.
    #unkept = [];
    // What keeps it in a file, if it is.
    /** @type {any} */
    #file;
    // Of which texts a `NoteText` is told the changes.
    #heard = new Set();

    constructor(site, founding) {
        if (site === 0) throw failure(NO_NUMBER);
        const { base, ...rest } = foundingOf(founding);
        this.#handle = opened(calls.noteOpen(given.site(site), { ...rest, base: rowOf(base) }));
        this.#site = site;
    }

    // The note that is kept in a file.
    static open(path, options) {
        if (NoteFile === undefined) throw new TypeError('a page has no files');
        const founding = foundingOf(options), note = new Note(options.site, founding);
        let file;
        try {
            file = new NoteFile(path, founding);
            note.#takeFrom(file);
        } catch (why) {
            note.close();
            file?.close();
            throw why;
        }
        return note;
    }

    // Has what a file has, which may be anybody's, and is kept there from now on.
    #takeFrom(file) {
        const records = file.records();
        try {
            for (const { head, body, author, site, rank } of records) {
                if (head === undefined) this.claim(author, site, rank);
                else this.add({ head, body });
            }
            this.update();
        } catch (why) {
            throw damage(file.path, why);
        }
        this.#file = file;
    }

    static {
        handleOf = (note) => note.#handle;
        heardOf = (/** @type {Note} */ note) => note.#heard;
    }

    get site() {
        return this.#site;
    }

    close() {
        const file = this.#file;
        this.#file = undefined;
        try {
            calls.noteClose(this.#handle);
        } finally {
            file?.close();
        }
    }

    [DISPOSE]() {
        this.close();
    }

    // A claim of a number came.
    claim(author, site, rank) {
        done(calls.noteClaim(this.#handle, hash(author), given.site(site), hash(rank)));
        this.#file?.gather(this.#file.claimOf(author, site, rank));
    }

    // An entry came, perhaps again, or an own one.
    add(entry) {
        const { head, body } = given.object(entry, 'an entry'), its = headOf(head);
        const record = this.#file?.entryOf(its, given.bytes(body));
        done(calls.noteAdd(this.#handle, its, given.bytes(body)));
        this.#file?.gather(record);
    }

    // Has the texts show what counts of all that came, once the disk has that.
    update() {
        this.#file?.keep(this.#unkept);
        this.#made.push(...this.#unkept.splice(0));
        this.#made.forEach((entry) => this.add(entry));
        done(calls.noteUpdate(this.#handle));
    }

    // Entries that say all own edits which weren't said; they count here from now on. Where memory is refused, or the disk can't keep them,
    // the next call answers them.
    say(author) {
        hash(author);
        const own = Array.from({ length: TEXTS }, (_, at) => this.#own(at + 1, author)).flat();
        this.#unkept = own.filter((entry) => !this.#made.some((made) => isSame(made, entry)));
        if (this.#made.length + this.#unkept.length > 0) this.update();
        return this.#made.splice(0);
    }

    #own(text, author) {
        for (const found = []; ;) {
            const answer = calls.noteOwn(this.#handle, text, author, found.length);
            if (answer[0] === NO_MESSAGE) return found;
            const [head, body] = done(answer);
            found.push({ head, body });
        }
    }

    // The entries of messages that the file has, in their order.
    kept() {
        done(calls.noteLength(this.#handle, 1));
        if (this.#file === undefined) throw new TypeError('the note is kept in no file');
        return this.#file.entries();
    }

    text(number = 1, options = {}) {
        return new NoteText(this, number, options);
    }
}
