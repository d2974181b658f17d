import { DEFAULT_LOOKS, INSERT } from './delta.js';
import { between } from './diff.js';
import { BAD_FILE, Damaged, NO_MESSAGE, OUT_OF_TEXT, damage, failure } from './errors.js';
import { Feed } from './feed.js';
import * as given from './given.js';
import { Buffer, Journal, calls } from './host.js';
import { Keeper } from './keeper.js';
import { Positions, begins, decoded } from './positions.js';
import { Digests } from './state.js';

const UNITS = ['bytes', 'utf-16'];
const TAKINGS = [undefined, 'taken', 'repeat', 'waits'];
const TAKEN = 1;
// What a packed file begins with.
const PACKED = 'OTP1';
const KINDS = [undefined, 'insert', 'delete', 'replace'];
// What `using` calls; where the platform has none yet, compilers make this one.
const DISPOSE = Symbol.dispose ?? Symbol.for('Symbol.dispose');

export function done([number, ...rest]) {
    if (number !== 0) throw failure(number);
    return rest;
}

export function opened(made) {
    if (Array.isArray(made)) throw failure(made[0]);
    return made;
}

// Changes as users have them.
export const changesFor = (changes) => changes.map(({ kind, beg, end }) => ({ kind: KINDS[kind], beg, end }));

// What only the classes of texts ask of one another.
export let byteOf, positionsOf;
let fallsBehind, note, opensPast;

// What is shown, now or as it was.
export class Shown {
    #handle;
    // The calls that it is asked by.
    #calls;
    // Whether other calls than its own may change it.
    #isShared;
    // Where the UTF-16 units are, if positions count these.
    /** @type {any} */
    #units;
    // Answers what changed since it was called last; whether that may be something which no edit told; and what edits told since positions
    // were followed, with the bytes that the first of it put in, if they are known.
    #changes;
    #isBehind = true;
    #told = [];
    #put;

    constructor(handle, units, changes, its = calls, isShared = false) {
        if (new.target === Shown) throw new TypeError('a Text or a Past is to be made');
        this.#isShared = isShared;
        this.#handle = handle;
        this.#calls = its;
        this.#units = units === 'bytes' ? undefined : new Positions();
        this.#changes = changes;
    }

    static {
        byteOf = (shown, pos) => shown.#byte(pos);
        opensPast = (shown, fronts) => opened(shown.#calls.past(shown.#handle, fronts));
        fallsBehind = (shown) => { shown.#isBehind = true; };
        note = (/** @type {Shown} */ shown, put) => { if (shown.#units !== undefined) shown.#note(put); };
        positionsOf = (shown) => shown.#units && shown.#followed();
    }

    #bytes(beg, end) {
        return opened(this.#calls.bytes(this.#handle, beg, end));
    }

    #byteLength() {
        return done(this.#calls.length(this.#handle))[0];
    }

    // Notes what an edit told, unless that is more than it tells, to be followed later: whatever that meets, the edit has been made.
    #note(put) {
        const { room } = calls;
        if (this.#told.length === 0) this.#put = put;
        this.#isBehind = room[1] < 0;
        for (let at = 2; at < 2 + 3 * room[1]; at += 3) this.#told.push({ kind: room[at], beg: room[at + 1], end: room[at + 2] });
    }

    // The positions in units as they are now.
    #followed() {
        if (!this.#isBehind && this.#told.length === 0) return this.#units;
        const changes = this.#isBehind ? [...this.#told, ...this.#changes()] : this.#told;
        const put = changes.length === 1 ? this.#put : undefined;
        this.#told = [];
        this.#put = undefined;
        this.#isBehind = this.#isShared;
        if (changes.length > 0) this.#units.follow(changes, (beg, end) => put ?? this.#bytes(beg, end));
        return this.#units;
    }

    // How many bytes stand before a position.
    #byte(pos) {
        given.position(pos);
        if (this.#units === undefined) return pos;
        const units = this.#followed();
        const byte = pos <= units.length ? units.byte(pos) : undefined;
        if (byte === undefined) throw failure(OUT_OF_TEXT);
        return byte;
    }

    // The position after this many bytes, or after the character that these end within.
    #pos(byte) {
        return this.#units === undefined ? byte : this.#followed().unit(byte);
    }

    // What positions and lengths count.
    get units() {
        return this.#units === undefined ? 'bytes' : 'utf-16';
    }

    close() {
        this.#isBehind = true;
        this.#calls.close(this.#handle);
    }

    [DISPOSE]() {
        this.close();
    }

    get length() {
        return this.#pos(this.#byteLength());
    }

    bytes(beg = 0, end = this.length) {
        return this.#bytes(this.#byte(beg), this.#byte(end));
    }

    slice(beg = 0, end = this.length) {
        return decoded(this.bytes(beg, end));
    }

    toString() {
        return decoded(this.#bytes(0, this.#byteLength()));
    }

    runs(beg = 0, end = this.length) {
        const found = [];
        const last = this.#byte(end);
        for (let at = this.#byte(beg), until = 0; at < last; at = until) {
            const [stop, colour, offset, ...font] = done(this.#calls.look(this.#handle, at));
            until = Math.min(stop, last);
            found.push({ beg: this.#pos(at), end: this.#pos(until), font: String.fromCharCode(...font), colour, offset });
        }
        return found.filter((run) => run.beg < run.end);
    }

    names(beg, end) {
        const [first, last] = [this.#byte(beg), this.#byte(end)];
        const numbers = done(this.#calls.names(this.#handle, first, last));
        const name = (at) => ({ site: numbers[2 * at], offset: numbers[2 * at + 1] });
        const begun = this.#units === undefined ? Array(last - first).keys() : begins(this.#bytes(first, last));
        return Array.from(begun, name);
    }

    nameRanges(beg, end) {
        const numbers = done(this.#calls.ranges(this.#handle, this.#byte(beg), this.#byte(end)));
        return Array.from({ length: numbers.length / 3 },
            (_, at) => ({ site: numbers[3 * at], offset: numbers[3 * at + 1], length: numbers[3 * at + 2] }));
    }

    // A place that stays with the character before it (side -1), or after it (1), wherever that goes; of site 0 at the text's ends.
    anchor(pos, side = -1) {
        const byte = this.#byte(pos), length = this.#byteLength(), at = byte - Number(given.side(side) < 0);
        if (byte > length) throw failure(OUT_OF_TEXT);
        if (at < 0 || at === length) return { site: 0, offset: 0, side };
        const [site, offset] = done(this.#calls.names(this.#handle, at, at + 1));
        return { site, offset, side };
    }

    position({ site, offset, side }) {
        const isAfter = given.side(side) > 0;
        if (site === 0) return isAfter ? this.length : 0;
        const [pos, isShown] = done(this.#calls.find(this.#handle, given.site(site), given.offset(offset)));
        return this.#pos(isAfter && isShown !== 0 ? pos - 1 : pos);
    }

    find({ site, offset }) {
        const [pos, isShown] = done(this.#calls.find(this.#handle, given.site(site), given.offset(offset)));
        return { pos: this.#pos(pos), isShown: isShown !== 0 };
    }
}

function wordAt(bytes, at) {
    return 256 * bytes[at] + bytes[at + 1];
}

// The chunks of bytes that have each behind its length.
function* chunksIn(packed) {
    for (let beg = 0, end; beg < packed.length; beg = end) {
        end = beg + 2 + packed[beg] + 256 * (packed[beg + 1] ?? 0);
        yield packed.subarray(beg + 2, end);
    }
}

// The changes of a text's bytes since this was called last.
function changesOf(handle) {
    const changes = [];
    for (let isMore = 1; isMore;) {
        const numbers = calls.changes(handle);
        if (numbers[0] !== 0) throw failure(numbers[0]);
        isMore = numbers[1];
        for (let i = 2; i < numbers.length; i += 3) {
            changes.push({ kind: numbers[i], beg: numbers[i + 1], end: numbers[i + 2] });
        }
    }
    return changes;
}

export class Text extends Shown {
    #handle;
    #number;
    #site;
    #feed;
    // The hashes of the messages up to this one.
    #digests = new Digests();
    #digested = 0;
    // What keeps it in a file, if it is; and the messages that weren't answered, since they couldn't be kept.
    /** @type {Keeper | undefined} */
    #keeper;
    #held = [];

    constructor(text, site, { units = 'bytes' } = {}, file = undefined) {
        if (!UNITS.includes(units)) throw new TypeError(`units are ${UNITS.join(' or ')}, not ${units}`);
        const handle = opened(file === undefined ? calls.open(given.site(text), given.site(site)) : calls.load(file));
        super(handle, units, () => changesOf(handle));
        this.#handle = handle;
        [this.#number, this.#site] = file === undefined ? [text, site] : [wordAt(file, 4), wordAt(file, 6)];
        this.#feed = new Feed(this, () => positionsOf(this)?.tell() ?? changesOf(handle), () => this.#keeper?.isKept ?? true);
    }

    // The number of the text, which it has at all sites.
    get number() {
        return this.#number;
    }

    get site() {
        return this.#site;
    }

    static load(file, options) {
        return new Text(0, 0, options, given.bytes(file));
    }

    // The text that is kept in a file.
    static open(path, { text = undefined, site = undefined, units = 'bytes' } = {}) {
        if (Journal === undefined) throw new TypeError('a page has no files');
        const journal = new Journal(path, site !== undefined);
        try {
            const kept = journal.read();
            if (kept === undefined) return Text.#begun(journal, text ?? 1, site, units);
            if (kept.text !== (text ?? kept.text) || kept.site !== (site ?? kept.site)) {
                throw new RangeError(`${path} is of text ${kept.text} at site ${kept.site}`);
            }
            return Text.#of(kept, units, journal.path).#keptIn(journal);
        } catch (why) {
            journal.close();
            throw why;
        }
    }

    static #begun(journal, text, site, units) {
        if (site === undefined) throw new TypeError('a file that has nothing yet needs a site');
        const made = new Text(text, site, { units });
        journal.begin(text, site);
        return made.#keptIn(journal);
    }

    // The text of a file, whose bytes may be anybody's.
    static #of({ text, site, history, entries }, units, path) {
        let made;
        try {
            const isPacked = history.subarray(0, PACKED.length).toString('latin1') === PACKED;
            made = isPacked ? Text.load(history, { units }) : new Text(text, site, { units });
            for (const entry of isPacked ? entries : [history, ...entries]) {
                for (const chunk of chunksIn(entry)) made.unpack(chunk);
            }
        } catch (why) {
            throw damage(path, why);
        }
        if (made.waiting > 0 || made.number !== text || made.site !== site) throw new Damaged(`what ${path} has isn't of one text`);
        return made;
    }

    #keptIn(journal) {
        this.#keeper = new Keeper(this, journal, {
            packed: (fronts) => this.#packed(fronts),
            history: () => {
                const packed = calls.storePacked(this.#handle);
                return Array.isArray(packed) && packed[0] === BAD_FILE ? this.#packed([]) : opened(packed);
            },
        });
        return this;
    }

    // What stood in the file behind all that was kept whole, as it was opened.
    get torn() {
        return this.#keeper?.torn ?? Buffer.from([]);
    }

    // Has the file have all that the text holds, and answers the messages that couldn't be answered before.
    keep() {
        done(calls.length(this.#handle));
        this.#keeper?.begins();
        return this.#feed.isOpen ? [] : this.#handedOut();
    }

    // All messages that weren't answered, which are kept by then.
    #handedOut() {
        this.#keeper?.keep();
        this.#feed.sendsRest();
        return this.#held.splice(0);
    }

    close() {
        const keeper = this.#keeper;
        this.#keeper = undefined;
        try {
            keeper?.keep();
        } finally {
            super.close();
            keeper?.close();
        }
    }

    store({ packed = false } = {}) {
        this.#keeper?.keep();
        return opened(packed ? calls.storePacked(this.#handle) : calls.store(this.#handle));
    }

    save() {
        return opened(calls.save(this.#handle));
    }

    #edited(call, put = undefined) {
        this.#keeper?.begins();
        const made = call(this.units !== 'bytes'), [number] = calls.room;
        note(this, number === 0 ? put : undefined);
        if (this.#keeper !== undefined) this.#held.push(...made);
        if (made.length > 0) this.#feed.noted(true, made);
        const messages = this.#keeper === undefined ? made : this.#feed.isOpen ? [] : this.#handedOut();
        if (number !== 0) throw failure(number, messages);
        return this.#feed.isOpen ? [] : messages;
    }

    // What others made was taken in, so many operations, and perhaps not all.
    #taken(count, number, operations = 0) {
        fallsBehind(this);
        try {
            this.#keeper?.took(this.#feed.isOpen);
        } finally {
            if (count > 0 || operations > 0) this.#feed.noted(false);
        }
        if (number !== 0) throw failure(number, [], operations);
    }

    insert(pos, data, looks = undefined) {
        const [byte, bytes] = [byteOf(this, pos), given.bytesOrString(data)];
        // (bytes may be changed by whoever has them)
        const put = typeof data === 'string' && data !== '' ? bytes : undefined;
        if (looks === undefined) return this.#edited((noted) => calls.insert(this.#handle, byte, bytes, noted), put);
        const { font = DEFAULT_LOOKS.font, colour = DEFAULT_LOOKS.colour, offset = DEFAULT_LOOKS.offset } = given.looks(looks);
        return this.#edited((noted) => calls.insertInLooks(this.#handle, byte, bytes, given.font(font), given.number(colour, 0, 255),
            given.number(offset, -128, 127), noted));
    }

    delete(beg, end) {
        return this.#edited((noted) => calls.delete(this.#handle, byteOf(this, beg), byteOf(this, end), noted));
    }

    changeLooks(beg, end, looks) {
        const { font, colour, offset } = given.looks(looks);
        const selected = Number(font !== undefined) + 2 * Number(colour !== undefined) + 4 * Number(offset !== undefined);
        return this.#edited((noted) => calls.looks(this.#handle, byteOf(this, beg), byteOf(this, end), selected,
            given.font(font ?? ''), given.number(colour ?? 0, 0, 255), given.number(offset ?? 0, -128, 127), noted));
    }

    restore() {
        return this.#edited((noted) => calls.restore(this.#handle, noted));
    }

    recall(pos) {
        return this.#edited((noted) => calls.recall(this.#handle, byteOf(this, pos), noted));
    }

    deleteNames(names) {
        return this.#edited((noted) => calls.deleteNames(this.#handle, given.ranges(names), noted));
    }

    restoreNames(names) {
        return this.#edited((noted) => calls.restoreNames(this.#handle, given.ranges(names), noted));
    }

    take(message) {
        this.#keeper?.begins();
        const [number, kind, drained, dropped, stopped] = calls.take(this.#handle, given.bytes(message));
        this.#taken(kind === TAKEN ? 1 : drained, number);
        return { kind: TAKINGS[kind], drained, dropped, stopped: stopped !== 0 };
    }

    unpack(chunk) {
        this.#keeper?.begins();
        const [number, stand, taken, known, waiting, stopped] = calls.unpack(this.#handle, given.bytes(chunk));
        this.#taken(taken, number, stand);
        return { taken, known, waiting, stopped: stopped !== 0 };
    }

    settle() {
        this.#keeper?.begins();
        const [number, drained, dropped, stopped] = calls.settle(this.#handle);
        this.#taken(drained, number);
        return { drained, dropped, stopped: stopped !== 0 };
    }

    forget() {
        return done(calls.forget(this.#handle))[0];
    }

    merge(other) {
        given.instance(other, Text);
        // A closed text refuses to take in itself too.
        done(calls.length(this.#handle));
        other.#keeper?.keep();
        this.#keeper?.begins();
        const [number, taken] = calls.merge(this.#handle, other.#handle);
        this.#taken(taken, number);
        return taken;
    }

    get waiting() {
        return done(calls.waiting(this.#handle))[0];
    }

    front(site) {
        return done(calls.front(this.#handle, given.site(site)))[0];
    }

    fronts() {
        return new Map(done(calls.sites(this.#handle)).map((site) => [site, this.front(site)]));
    }

    // How far this text is, as bytes.
    state() {
        this.#keeper?.keep();
        return this.#followedDigests().state(this.number, this.fronts());
    }

    check(state) {
        return this.#followedDigests().check(given.bytes(state), this, this.fronts());
    }

    #followedDigests() {
        for (; ;) {
            const answer = calls.since(this.#handle, new Uint32Array(0), this.#digested);
            if (answer[0] === NO_MESSAGE) return this.#digests;
            const [index, message] = done(answer);
            this.#digested = index;
            this.#digests.add(message);
        }
    }

    // What is asked for is fronts, or another text's state, which is checked.
    #asked(fronts) {
        return given.isBytes(fronts) ? this.check(fronts) : fronts;
    }

    since(fronts) {
        const asked = given.fronts(this.#asked(fronts));
        // (a text that is closed is refused here, and not at the first step)
        done(calls.length(this.#handle));
        return this.#since(asked);
    }

    *#since(fronts) {
        for (let index = 0, message; ;) {
            this.#keeper?.keep();
            const answer = calls.since(this.#handle, fronts, index);
            if (answer[0] === NO_MESSAGE) return;
            [index, message] = done(answer);
            yield message;
        }
    }

    /** @param {Iterable<readonly number[]> | Uint8Array} fronts */
    pack(fronts = []) {
        this.#keeper?.keep();
        return [...chunksIn(this.#packed(this.#asked(fronts)))];
    }

    #packed(fronts) {
        return opened(calls.pack(this.#handle, given.fronts(fronts)));
    }

    past(fronts) {
        return new Past(this, fronts);
    }

    diff(from, to = this.fronts()) {
        const [was, is] = [this.past(from), this.past(to)];
        try {
            return between(was, is);
        } finally {
            was.close();
            is.close();
        }
    }

    copy(site, { at = undefined, units = this.units } = {}) {
        if (site === this.site || this.front(site) > 0) {
            throw new RangeError(`site ${site} makes operations of its own: a copy needs a site that nobody else is`);
        }
        const text = new Text(this.number, site, { units });
        if (at === undefined) text.merge(this);
        else this.#send(text, new Map(this.#asked(at)));
        return text;
    }

    #send(text, fronts) {
        for (const message of this.since([])) {
            const isMeant = message.readUInt32BE(8) <= (fronts.get(message.readUInt16BE(6)) ?? 0);
            // (what builds on an operation past the fronts can't be taken in)
            if (isMeant && text.take(message).kind === 'waits') text.forget();
        }
    }

    changes() {
        return changesFor(this.#feed.changes());
    }

    delta() {
        return this.#feed.delta();
    }

    // Whether calls are a part of a batch now.
    get isInBatch() {
        return this.#feed.isOpen;
    }

    subscribe(listener) {
        return this.#feed.subscribe(listener);
    }

    batch(calls, origin = undefined) {
        if (typeof calls !== 'function') throw new TypeError('a function is wanted, which makes the calls');
        const before = this.fronts();
        if (this.#held.length > 0) before.set(this.site, this.front(this.site) - this.#held.length);
        let isWhole = false;
        try {
            isWhole = this.#feed.batch(calls, origin);
        } catch (why) {
            // (what was done stands)
            if (!this.#feed.isOpen && why instanceof Error) /** @type {any} */ (why).messages = this.#packedPast(before);
            throw why;
        }
        return isWhole ? this.#packedPast(before) : [];
    }

    #packedPast(fronts) {
        this.#keeper?.refuseWhereElsewhere();
        const chunks = this.pack(fronts);
        this.#held = [];
        this.#feed.sendsRest();
        return chunks;
    }

    paste(pos, data, looks = undefined) {
        return this.batch(() => this.insert(pos, data, looks));
    }

    endNoting(shown = 0) {
        if (this.units !== 'bytes') throw new TypeError('a text of UTF-16 units follows its changes');
        done(calls.endNoting(this.#handle, given.position(shown)));
    }

    replacement() {
        const [deleted, inserted] = done(calls.replacement(this.#handle));
        return { deleted, inserted };
    }
}

// A text as it was.
export class Past extends Shown {
    constructor(text, fronts) {
        if (given.instance(text, Shown) instanceof Past) throw new TypeError('of a text as it was there is no other one');
        const handle = opensPast(text, given.fronts(fronts));
        const changes = [{ kind: INSERT, beg: 0, end: done(calls.length(handle))[0] }];
        super(handle, text.units, () => changes.splice(0));
    }
}
