// The calls of addon.c, by the same names, over the library as a module of WebAssembly: text.js takes either. What the module
// reads and writes is as vialshoal.h has it, with sizes and pointers of 32 bits.
import { Buffer } from './host.js';

const OUT_OF_MEMORY = 7;
const TOO_SHORT = 107;
// The most bytes that memory is asked for at once.
const MOST = 2 ** 31 - 1;
// How much is kept for the numbers that a call answers, for what it reads, and for what it writes. A call that reads or writes
// more takes memory of its own.
const ANSWER = 64;
const ROOM = 65536;
// How long the header's types are.
const HANDLE = 4;
const SITE = 2;
const NAME = 8;
const CHANGE = 24;
const HASH = 32;
const HEAD = 76;
// How many names are asked for at once.
const NAMES = ROOM / NAME;
// How many changes an edit tells of. Those of one that made more come alone, and what came later after them.
const FEW = 16;

class NoMemory extends Error {
    constructor() {
        super('vialshoal: memory was refused');
    }
}

// What a handle holds.
const [TEXT, PAST, NOTE] = [0, 1, 2];

// A text, one as it was, or a note: where the module has its handle.
class Handle {
    constructor(at, kind) {
        this.at = at;
        this.kind = kind;
        this.isPast = kind === PAST;
    }
}

function shown(handle) {
    if (!(handle instanceof Handle) || handle.kind === NOTE) throw new TypeError('vialshoal: a text was expected');
    return handle.at;
}

function note(handle) {
    if (!(handle instanceof Handle) || handle.kind !== NOTE) throw new TypeError('vialshoal: a note was expected');
    return handle.at;
}

function text(handle) {
    const at = shown(handle);
    if (handle.isPast) throw new TypeError('vialshoal: a text was expected');
    return at;
}

// The module's memory, and how its functions are called.
class Library {
    #memory;
    #bytes;
    #words;
    #allocate;
    #free;
    #isLost = false;
    #dropped = new FinalizationRegistry((handle) => this.#drop(handle));

    constructor(module) {
        /** @type {any} */
        this.exports = new WebAssembly.Instance(module).exports;
        this.#memory = this.exports.memory;
        this.#allocate = this.exports.vialshoal_wasm_allocate;
        this.#free = this.exports.vialshoal_wasm_free;
        this.#view();
        this.answer = this.#allocated(ANSWER + 2 * ROOM);
        this.given = this.answer + ANSWER;
        this.room = this.given + ROOM;
    }

    // (a memory that grew has other views)
    #view() {
        this.#bytes = new Uint8Array(this.#memory.buffer);
        this.#words = new DataView(this.#memory.buffer);
    }

    // Calls a function of the module. One that didn't come back may have left things half done, so none is called after it.
    call(wanted, ...given) {
        if (this.#isLost) throw new Error('vialshoal: a call before this one did not come back');
        this.#isLost = true;
        const number = wanted(...given) >>> 0;
        this.#isLost = false;
        if (this.#words.buffer !== this.#memory.buffer) this.#view();
        return number;
    }

    #allocated(length) {
        const at = length <= MOST ? this.call(this.#allocate, length) : 0;
        if (at === 0) throw new NoMemory();
        return at;
    }

    #freed(at, length) {
        if (!this.#isLost) this.call(this.#free, at, length);
    }

    #within(kept, length, use) {
        if (length <= ROOM) return use(kept);
        const at = this.#allocated(length);
        try {
            return use(at);
        } finally {
            this.#freed(at, length);
        }
    }

    // What `use` answers, which is called with where these bytes stand and how many they are.
    handed(data, use) {
        return this.#within(this.given, data.length, (at) => {
            this.#bytes.set(data, at);
            return use(at, data.length);
        });
    }

    // The same of rows, each of `width` numbers.
    rows(numbers, width, use) {
        const count = Math.floor(numbers.length / width), length = width * count;
        return this.#within(this.given, 4 * length, (at) => {
            for (let index = 0; index < length; index += 1) this.#words.setUint32(at + 4 * index, numbers[index], true);
            return use(at, count);
        });
    }

    // What `read` makes of what `put` puts into a room for this many items of this size; or the number that refuses it.
    filled(size, put, read) {
        let number = put(this.room, Math.floor(ROOM / size));
        const need = this.wide(this.answer);
        if (number === 0) return read(this.room, need);
        if (number !== TOO_SHORT) return [number];
        return this.#within(this.room, size * need, (at) => {
            number = put(at, need);
            return number === 0 ? read(at, need) : [number];
        });
    }

    // The handle that `open` opened; or the number that refuses it.
    opened(kind, open) {
        const at = this.#allocated(HANDLE);
        this.#words.setUint32(at, 0, true);
        const number = open(at);
        if (number !== 0) {
            this.#freed(at, HANDLE);
            return [number];
        }
        const handle = new Handle(at, kind);
        this.#dropped.register(handle, { at, kind });
        return handle;
    }

    close({ at, kind }) {
        const { vialshoal_free, vialshoal_past_free, vialshoal_note_free } = this.exports;
        return this.call([vialshoal_free, vialshoal_past_free, vialshoal_note_free][kind], at);
    }

    #drop(handle) {
        if (this.#isLost) return;
        this.close(handle);
        this.#freed(handle.at, HANDLE);
    }

    byte(at) {
        return this.#bytes[at];
    }

    number(at) {
        return this.#words.getUint32(at, true);
    }

    wide(at) {
        return this.number(at) + 2 ** 32 * this.number(at + 4);
    }

    setWide(at, number) {
        this.#words.setBigUint64(at, BigInt(number), true);
    }

    site(at) {
        return this.#words.getUint16(at, true);
    }

    bytes(at, length) {
        return this.#bytes.subarray(at, at + length);
    }
}

// The numbers that `of` makes of items of this size.
function listed(at, count, size, of) {
    const found = [0];
    for (let item = at; item < at + size * count; item += size) found.push(...of(item));
    return found;
}

// Adds names to the stretches of them, a site, an offset and a length each; both come after a number.
function join(stretches, names) {
    for (let at = 1; at < names.length; at += 2) {
        const last = stretches.length - 3;
        if (last > 0 && stretches[last] === names[at] && stretches[last + 1] + stretches[last + 2] === names[at + 1]) stretches[last + 2] += 1;
        else stretches.push(names[at], names[at + 1], 1);
    }
}

function calls(library) {
    const { answer, room, exports: c } = library;
    const call = library.call.bind(library);
    const number = library.number.bind(library);
    const wide = library.wide.bind(library);

    const copied = (at, length) => Buffer.from(library.bytes(at, length));
    const file = (put) => library.filled(1, put, copied);
    // What an edit answers beside its messages: its number, of how many changes it tells, or -1, and of each three numbers.
    const told = new Float64Array(2 + 3 * FEW);
    // Puts what changed there.
    function putChanges(at) {
        const isTold = call(c.vialshoal_changes, at, room, FEW, answer) === 0;
        told[1] = isTold ? wide(answer) : -1;
        for (let index = 0, change = room; index < told[1]; index += 1, change += CHANGE) {
            told.set([number(change), wide(change + 8), wide(change + 16)], 2 + 3 * index);
        }
    }
    // All messages that are kept, which are let go.
    function messages(at) {
        const found = [];
        const count = call(c.vialshoal_messages, at, answer) === 0 ? wide(answer) : 0;
        for (let index = 0; index < count; index += 1) {
            call(c.vialshoal_message, at, BigInt(index), room, ROOM, answer);
            found.push(copied(room, wide(answer)));
        }
        if (count > 0) call(c.vialshoal_let_go, at);
        return found;
    }
    // An edit, which is given after its own words whether changes are asked for.
    const edit = (made) => (it, ...words) => {
        const at = text(it), noted = words.pop();
        try {
            told[0] = made(at, ...words);
        } catch (why) {
            if (!(why instanceof NoMemory)) throw why;
            told[0] = OUT_OF_MEMORY;
        }
        told[1] = 0;
        if (noted) putChanges(at);
        return messages(at);
    };
    const names = (wanted) => edit((it, ranges) => library.rows(ranges, 3, (at, count) => call(wanted, it, at, count, answer)));
    // What a text and one as it was are asked alike.
    const asked = (now, past) => (it, ...words) => call(it.isPast ? past : now, shown(it), ...words);
    const lengthOf = asked(c.vialshoal_length, c.vialshoal_past_length);
    const bytesOf = asked(c.vialshoal_bytes, c.vialshoal_past_bytes);
    const looksOf = asked(c.vialshoal_looks, c.vialshoal_past_looks);
    const namesOf = asked(c.vialshoal_names, c.vialshoal_past_names);
    const findIn = asked(c.vialshoal_find, c.vialshoal_past_find);

    return {
        open: (number, site) => library.opened(TEXT, (at) => call(c.vialshoal_new, at, number, site)),
        load: (data) => library.handed(data, (from, length) =>
            library.opened(TEXT, (at) => call(c.vialshoal_load, at, from, length))),
        store: (it) => file((at, length) => call(c.vialshoal_store, text(it), at, length, answer)),
        storePacked: (it) => file((at, length) => call(c.vialshoal_store_packed, text(it), at, length, answer)),
        save: (it) => file((at, length) => call(c.vialshoal_save, text(it), at, length, answer)),
        close: (it) => [library.close({ at: shown(it), kind: it.kind })],
        room: told,
        insert: edit((it, pos, data) => library.handed(data, (at, length) =>
            call(c.vialshoal_insert, it, BigInt(pos), at, length, answer))),
        insertInLooks: edit((it, pos, data, font, colour, offset) => library.handed(Buffer.concat([data, font]), (at) =>
            call(c.vialshoal_insert_in_looks, it, BigInt(pos), at, data.length, at + data.length, font.length, colour, offset, answer))),
        delete: edit((it, beg, end) => call(c.vialshoal_delete, it, BigInt(beg), BigInt(end), answer)),
        looks: edit((it, beg, end, selected, font, colour, offset) => library.handed(font, (at, length) =>
            call(c.vialshoal_change_looks, it, BigInt(beg), BigInt(end), selected, at, length, colour, offset, answer))),
        restore: edit((it) => call(c.vialshoal_restore, it, answer)),
        recall: edit((it, pos) => call(c.vialshoal_recall, it, BigInt(pos), answer)),
        deleteNames: names(c.vialshoal_delete_names),
        restoreNames: names(c.vialshoal_restore_names),
        take: (it, message) => library.handed(message, (at, length) => {
            const refused = call(c.vialshoal_take, text(it), at, length, answer);
            return [refused, number(answer), number(answer + 4), number(answer + 8), library.byte(answer + 12)];
        }),
        unpack: (it, chunk) => library.handed(chunk, (at, length) => {
            library.setWide(answer + 24, 0);
            const refused = call(c.vialshoal_unpack, text(it), at, length, answer);
            return [refused, wide(answer + 24), wide(answer), wide(answer + 8), wide(answer + 16), library.byte(answer + 32)];
        }),
        settle(it) {
            const refused = call(c.vialshoal_settle, text(it), answer);
            return [refused, number(answer), number(answer + 4), library.byte(answer + 8)];
        },
        forget: (it) => [call(c.vialshoal_forget, text(it), answer), number(answer)],
        merge(it, other) {
            const [at, from] = [text(it), text(other)];
            return at === from ? [0, 0] : [call(c.vialshoal_merge, at, from, answer), wide(answer)];
        },
        waiting: (it) => [call(c.vialshoal_waiting, text(it), answer), number(answer)],
        front: (it, site) => [call(c.vialshoal_front, text(it), site, answer), number(answer)],
        sites: (it) => library.filled(SITE, (at, count) => call(c.vialshoal_sites, text(it), at, count, answer),
            (at, count) => listed(at, count, SITE, (site) => [library.site(site)])),
        since: (it, fronts, index) => library.rows(fronts, 2, (at, count) => {
            library.setWide(answer, index);
            const refused = call(c.vialshoal_since, text(it), at, count, answer, room, ROOM, answer + 8);
            return refused === 0 ? [0, wide(answer), copied(room, wide(answer + 8))] : [refused, wide(answer)];
        }),
        pack: (it, fronts) => library.rows(fronts, 2, (from, many) =>
            file((at, length) => call(c.vialshoal_pack, text(it), from, many, at, length, answer))),
        past: (it, fronts) => library.rows(fronts, 2, (from, many) =>
            library.opened(PAST, (at) => call(c.vialshoal_past, text(it), from, many, at))),
        length: (it) => [lengthOf(it, answer), wide(answer)],
        bytes: (it, beg, end) => file((at, length) => bytesOf(it, BigInt(beg), BigInt(end), at, length, answer)),
        look(it, pos) {
            const refused = looksOf(it, BigInt(pos), answer + 8, room, ROOM, answer);
            if (refused !== 0) return [refused];
            const offset = library.byte(answer + 17) << 24 >> 24;
            return [0, wide(answer + 8), library.byte(answer + 16), offset, ...library.bytes(room, wide(answer))];
        },
        names: (it, beg, end) => library.filled(NAME, (at, count) => namesOf(it, BigInt(beg), BigInt(end), at, count, answer),
            (at, count) => listed(at, count, NAME, (name) => [library.site(name), number(name + 4)])),
        ranges(it, beg, end) {
            const found = [0];
            for (let from = beg, number = namesOf(it, BigInt(beg), BigInt(end), room, 0, answer); ; from += NAMES) {
                if (number !== 0 && number !== TOO_SHORT) return [number];
                if (from >= end) return found;
                number = namesOf(it, BigInt(from), BigInt(Math.min(from + NAMES, end)), room, NAMES, answer);
                if (number === 0) join(found, listed(room, wide(answer), NAME, (name) => [library.site(name), library.number(name + 4)]));
            }
        },
        find: (it, site, offset) => [findIn(it, site, offset, answer), wide(answer), library.byte(answer + 8)],
        changes: (it) => library.filled(CHANGE, (at, count) => call(c.vialshoal_changes, text(it), at, count, answer),
            (at, count) => {
                const [done, ...changes] = listed(at, count, CHANGE, (change) => [number(change), wide(change + 8), wide(change + 16)]);
                return [done, Number(count > FEW), ...changes];
            }),
        endNoting: (it, shown) => [call(c.vialshoal_end_noting, text(it), BigInt(shown))],
        replacement: (it) => [call(c.vialshoal_replacement, text(it), answer), wide(answer), wide(answer + 8)],
    };
}

// The calls of a note. A head is { author, before, first, count, site, text }, hashes and keys are bytes.
function noteCalls(library) {
    const { answer, room, exports: c } = library;
    const call = library.call.bind(library);
    const number = library.number.bind(library);
    const wide = library.wide.bind(library);

    const copied = (at, length) => Buffer.from(library.bytes(at, length));
    // What reads a text of a note, into a room of bytes.
    const file = (put) => library.filled(1, put, copied);
    // An edit's number, and how many messages it made.
    const edited = (number) => [number, library.number(answer)];
    const byNames = (wanted) => (it, text, ranges) => library.rows(ranges, 3, (at, count) => edited(call(wanted, note(it), text, at, count, answer)));

    function headBytes({ author, before, first, count, site, text }) {
        const bytes = new Uint8Array(HEAD), words = new DataView(bytes.buffer);
        bytes.set(author, 0);
        bytes.set(before, HASH);
        words.setUint32(2 * HASH, first, true);
        [count, site, text].forEach((number, index) => words.setUint16(2 * HASH + 4 + 2 * index, number, true));
        return bytes;
    }

    function headAt(at) {
        const [first, count, site, text] = [number(at + 2 * HASH), ...[4, 6, 8].map((place) => library.site(at + 2 * HASH + place))];
        return { author: copied(at, HASH), before: copied(at + HASH, HASH), first, count, site, text };
    }

    return {
        noteOpen: (site, { key, founder, number, baseKey, root, base }) =>
            library.handed(Buffer.concat([key, founder, baseKey, root, base]), (at) => library.opened(NOTE, (handle) =>
                call(c.vialshoal_note_new, handle, site, at, at + HASH, number, at + 2 * HASH, at + 3 * HASH, at + 4 * HASH, base.length))),
        noteClose: (it) => [library.close({ at: note(it), kind: NOTE })],
        noteClaim: (it, author, site, rank) => library.handed(Buffer.concat([author, rank]), (at) =>
            [call(c.vialshoal_note_claim, note(it), at, site, at + HASH)]),
        noteAdd: (it, head, body) => library.handed(Buffer.concat([headBytes(head), body]), (at) =>
            [call(c.vialshoal_note_add, note(it), at, at + HEAD, body.length)]),
        noteUpdate: (it) => [call(c.vialshoal_note_update, note(it))],
        noteInsert: (it, text, pos, data) => library.handed(data, (at, length) =>
            edited(call(c.vialshoal_note_insert, note(it), text, BigInt(pos), at, length, answer))),
        noteDelete: (it, text, beg, end) => edited(call(c.vialshoal_note_delete, note(it), text, BigInt(beg), BigInt(end), answer)),
        noteLooks: (it, text, beg, end, selected, font, colour, offset) => library.handed(font, (at, length) =>
            edited(call(c.vialshoal_note_change_looks, note(it), text, BigInt(beg), BigInt(end), selected, at, length, colour, offset, answer))),
        noteDeleteNames: byNames(c.vialshoal_note_delete_names),
        noteRestoreNames: byNames(c.vialshoal_note_restore_names),
        // Of the entry of this index: its number, and then its head and its body.
        noteOwn: (it, text, author, index) => library.handed(Buffer.concat([author, new Uint8Array(HEAD)]), (at) => {
            const found = file((to, length) => call(c.vialshoal_note_own, note(it), text, at, BigInt(index), at + HASH, to, length, answer));
            return found instanceof Uint8Array ? [0, headAt(at + HASH), found] : found;
        }),
        // The number, whether the text was begun anew, and of each change three numbers.
        noteChanges: (it, text) => library.filled(CHANGE, (at, count) =>
            call(c.vialshoal_note_changes, note(it), text, answer + 8, at, count, answer), (at, count) => {
            const [done, ...changes] = listed(at, count, CHANGE, (change) => [number(change), wide(change + 8), wide(change + 16)]);
            return [done, library.byte(answer + 8), ...changes];
        }),
        noteLength: (it, text) => [call(c.vialshoal_note_length, note(it), text, answer), wide(answer)],
        noteBytes: (it, text, beg, end) => file((at, length) =>
            call(c.vialshoal_note_bytes, note(it), text, BigInt(beg), BigInt(end), at, length, answer)),
        noteLook(it, text, pos) {
            const refused = call(c.vialshoal_note_looks, note(it), text, BigInt(pos), answer + 8, room, ROOM, answer);
            if (refused !== 0) return [refused];
            const offset = library.byte(answer + 17) << 24 >> 24;
            return [0, wide(answer + 8), library.byte(answer + 16), offset, ...library.bytes(room, wide(answer))];
        },
        noteNames: (it, text, beg, end) => library.filled(NAME, (at, count) =>
            call(c.vialshoal_note_names, note(it), text, BigInt(beg), BigInt(end), at, count, answer),
        (at, count) => listed(at, count, NAME, (name) => [library.site(name), number(name + 4)])),
        noteFind: (it, text, site, offset) => [call(c.vialshoal_note_find, note(it), text, site, offset, answer), wide(answer),
            library.byte(answer + 8)],
        noteFront: (it, text, site) => [call(c.vialshoal_note_front, note(it), text, site, answer), number(answer)],
        noteSites: (it, text) => library.filled(SITE, (at, count) => call(c.vialshoal_note_sites, note(it), text, at, count, answer),
            (at, count) => listed(at, count, SITE, (site) => [library.site(site)])),
        notePast: (it, text, fronts) => library.rows(fronts, 2, (from, many) =>
            library.opened(PAST, (at) => call(c.vialshoal_note_past, note(it), text, from, many, at))),
    };
}

// What an addon answers that wants for memory.
function answering(asked) {
    return (...given) => {
        try {
            return asked(...given);
        } catch (why) {
            if (!(why instanceof NoMemory)) throw why;
            return [OUT_OF_MEMORY, 0];
        }
    };
}

// The calls over a compiled module.
export function callsOf(module) {
    const library = new Library(module);
    const { room, ...found } = { ...calls(library), ...noteCalls(library) };
    return { room, ...Object.fromEntries(Object.entries(found).map(([name, asked]) => [name, answering(asked)])) };
}
