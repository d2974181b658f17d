// Who is there, and where: what each says of itself, until it leaves or wasn't heard of for a while. Nothing of it is kept.
import { failure } from './errors.js';
import * as given from './given.js';
import { Buffer } from './host.js';

const MALFORMED = 1;
const TIMEOUT = 30_000;
// Of 64 bits, in hex.
const ID = /^[0-9a-f]{16}$/;

function newId() {
    return [...crypto.getRandomValues(new Uint32Array(2))].map((word) => word.toString(16).padStart(8, '0')).join('');
}

function isEntry(entry) {
    if (!Array.isArray(entry) || entry.length !== 3) return false;
    const [id, clock, state] = entry;
    return typeof id === 'string' && ID.test(id) && Number.isSafeInteger(clock) && clock >= 0 && typeof state === 'object';
}

function entriesOf(bytes) {
    try {
        const entries = JSON.parse(Buffer.from(given.bytes(bytes)).toString());
        if (Array.isArray(entries) && entries.every(isEntry)) return entries;
    } catch (why) {
        if (!(why instanceof SyntaxError)) throw why;
    }
    throw failure(MALFORMED);
}

// The states of all who take part, each by an id of its own, which it needs beside its site's number: one may have two windows open.
export class Presence {
    #timeout;
    #now;
    // By ids: the number of the last state, the state, none of one who left, and when it came.
    #known = new Map();
    #listeners = new Set();

    constructor({ id = newId(), timeout = TIMEOUT, now = Date.now } = {}) {
        if (!ID.test(id)) throw new TypeError('an id is 16 digits of hex');
        this.id = id;
        this.#timeout = timeout;
        this.#now = now;
    }

    #tell(changed) {
        if (changed.length > 0) for (const listener of [...this.#listeners]) listener(changed);
    }

    #encoded(ids) {
        return Buffer.from(JSON.stringify(ids.map((id) => [id, this.#known.get(id).clock, this.#known.get(id).state])));
    }

    #renew(state) {
        this.#known.set(this.id, { clock: (this.#known.get(this.id)?.clock ?? 0) + 1, state, at: this.#now() });
        return this.#encoded([this.id]);
    }

    get state() {
        return this.#known.get(this.id)?.state ?? null;
    }

    // Says something of oneself, or that one leaves, and answers what is to be sent to the others.
    set(state) {
        if (typeof state !== 'object') throw new TypeError('a state is an object, or null of one who leaves');
        const bytes = this.#renew(state);
        this.#tell([this.id]);
        return bytes;
    }

    // The states of those who are there, oneself too, by their ids.
    states() {
        return new Map([...this.#known].filter(([, { state }]) => state !== null).map(([id, { state }]) => [id, state]));
    }

    // What is known of some, or of all, for one who comes.
    encode(ids = this.#known.keys()) {
        return this.#encoded([...ids].filter((id) => this.#known.has(id)));
    }

    // Says of others that they left, as one sees it by whom they were heard. Answers what is to be sent.
    leave(ids) {
        const left = [...ids].filter((id) => id !== this.id && this.#known.get(id)?.state);
        for (const id of left) this.#known.set(id, { clock: this.#known.get(id).clock + 1, state: null, at: this.#now() });
        this.#tell(left);
        return this.#encoded(left);
    }

    // Takes in what others sent. Answers the ids of those whose states changed.
    take(bytes) {
        const changed = [];
        for (const [id, clock, state] of entriesOf(bytes)) {
            const known = this.#known.get(id);
            if (known !== undefined && clock <= known.clock) continue;
            if (id === this.id) {
                // (what one has said of oneself, or was said to have left, before; `tick` says it anew)
                if (known !== undefined) Object.assign(known, { clock, at: -Infinity });
                continue;
            }
            this.#known.set(id, { clock, state, at: this.#now() });
            if (state !== null || known?.state) changed.push(id);
        }
        this.#tell(changed);
        return changed;
    }

    // Lets those go who weren't heard of for long. Answers what is to be sent, if it is time to say again that one is there.
    tick() {
        const now = this.#now(), gone = [];
        for (const [id, { state, at }] of this.#known) {
            if (id === this.id || now - at < this.#timeout) continue;
            // (its number is remembered for as long again, so that nothing old comes back)
            if (state !== null) {
                this.#known.get(id).state = null;
                gone.push(id);
            } else if (now - at >= 2 * this.#timeout) {
                this.#known.delete(id);
            }
        }
        this.#tell(gone);
        const own = this.#known.get(this.id);
        return own !== undefined && own.state !== null && now - own.at >= this.#timeout / 2 ? this.#renew(own.state) : undefined;
    }

    subscribe(listener) {
        this.#listeners.add(listener);
        return () => { this.#listeners.delete(listener); };
    }
}
