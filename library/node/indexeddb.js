// A text that a page keeps in its browser's database: its history, and behind it what was taken in since, as chunks.
import { Text } from './browser.mjs';

const STORE = 'kept';
// What was taken in since isn't worth a new history below this many bytes.
const LEAST = 65536;
const PACKED = 'OTP1';
// So long, in milliseconds, it may take until a page that ended, as before it is loaded again, has let go.
const PATIENCE = 5000;

function failure(name, words, at) {
    return Object.assign(new Error(`${words}: ${at}`), { name, code: name });
}

// What a request, or a transaction, comes to.
function come(request) {
    return new Promise((resolve, reject) => {
        const fails = () => reject(request.error ?? new Error('the database gave up'));
        Object.assign(request, {
            onsuccess: () => resolve(request.result), oncomplete: () => resolve(undefined), onerror: fails, onabort: fails,
        });
    });
}

async function opened(indexedDB, name) {
    const request = indexedDB.open(`vialshoal ${name}`, 1);
    request.onupgradeneeded = () => request.result.createObjectStore(STORE, { autoIncrement: true });
    return come(request);
}

// Holds a lock until the call that it answers is made; one page has it at a time.
function held(locks, name) {
    return new Promise((resolve, reject) => {
        const patience = new AbortController();
        setTimeout(() => patience.abort(), PATIENCE);
        const fails = (why) => reject(!patience.signal.aborted ? why :
            failure('EAGAIN', 'it is open already: a site goes on from what it keeps once at a time', name));
        locks.request(`vialshoal ${name}`, { signal: patience.signal }, () => new Promise((free) => { resolve(free); })).catch(fails);
    });
}

function textOf({ text, site, history }, units) {
    if (history === undefined) return new Text(text, site, { units });
    if (new TextDecoder('latin1').decode(history.subarray(0, PACKED.length)) === PACKED) return Text.load(history, { units });
    throw failure('DAMAGED', 'it is no history', `site ${site}`);
}

export class IndexedDBStore {
    #base;
    #free;
    // How many bytes of chunks are behind the history, and how long that is; up to where the text is there; what is being written.
    #size;
    #most;
    #kept;
    #writing = Promise.resolve();
    #isDue = false;
    #end;

    // The text of this name, for its site to go on; one that isn't there is begun for text `text`, or 1, at site `site`.
    static async open(name, { text, site, units = 'bytes' } = /** @type {any} */ ({})) {
        const { indexedDB, navigator: { locks } } = globalThis;
        if (locks === undefined) throw failure('ENOLCK', 'a page without locks (it is not secure) keeps nothing', name);
        const free = await held(locks, name);
        let base;
        try {
            base = await opened(indexedDB, name);
            const [head, ...entries] = await come(base.transaction(STORE).objectStore(STORE).getAll());
            if (head === undefined && site === undefined) throw new TypeError('what is new needs a site');
            if (head !== undefined && ((text ?? head.text) !== head.text || (site ?? head.site) !== head.site)) {
                throw new RangeError(`${name} is of text ${head.text} at site ${head.site}`);
            }
            const store = new IndexedDBStore(base, free, head ?? { text: text ?? 1, site }, entries, units);
            if (head === undefined) await store.#rewritten();
            return store;
        } catch (why) {
            base?.close();
            free();
            throw why;
        }
    }

    constructor(base, free, head, entries, units) {
        this.#base = base;
        this.#free = free;
        this.text = textOf(head, units);
        for (const { chunks } of entries) for (const chunk of chunks) this.text.unpack(chunk);
        this.#size = entries.reduce((sum, { chunks }) => sum + chunks.reduce((all, { length }) => all + length, 0), 0);
        this.#most = Math.max(head.history?.length ?? 0, LEAST);
        this.#kept = this.text.fronts();
        this.#end = this.text.subscribe(() => this.#later());
    }

    #later() {
        if (this.#isDue) return;
        this.#isDue = true;
        queueMicrotask(() => this.kept().catch(() => undefined));
    }

    // Comes once the disk has all that the text holds now, or can't have it.
    kept() {
        this.#isDue = false;
        this.#writing = this.#writing.catch(() => undefined).then(() => this.#written());
        return this.#writing;
    }

    async #written() {
        const chunks = this.text.pack(this.#kept), fronts = this.text.fronts();
        if (chunks.length === 0) return;
        const done = this.#base.transaction(STORE, 'readwrite', { durability: 'strict' });
        done.objectStore(STORE).add({ chunks: chunks.map((chunk) => new Uint8Array(chunk)) });
        await come(done);
        this.#kept = fronts;
        this.#size += chunks.reduce((sum, { length }) => sum + length, 0);
        if (this.#size > this.#most) await this.#rewritten().catch(() => { this.#most *= 2; });
    }

    // Puts the history in place of all that is there; where that can't be done, what is there goes on.
    async #rewritten() {
        const { number: text, site } = this.text, fronts = this.text.fronts();
        const history = fronts.size > 0 ? new Uint8Array(this.text.store({ packed: true })) : undefined;
        const done = this.#base.transaction(STORE, 'readwrite', { durability: 'strict' }), store = done.objectStore(STORE);
        store.clear();
        store.add({ text, site, history });
        await come(done);
        this.#kept = fronts;
        this.#size = 0;
        this.#most = Math.max(history?.length ?? 0, LEAST);
    }

    // Keeps what there is, and closes the text, too.
    async close() {
        this.#end();
        try {
            await this.kept();
        } finally {
            this.text.close();
            this.#base.close();
            this.#free();
        }
    }
}
