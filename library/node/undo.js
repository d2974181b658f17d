// What is edited here can be taken back, and done again, by the characters' names: nobody else's text is touched.
import { madeBy } from './feed.js';
import { effectOf, united, without } from './names.js';

// No message speaks of more ranges.
const MOST_RANGES = 1024;
const CAPTURE_TIME = 500;

// What two edits show and hide, the one after the other.
function both(one, other) {
    return {
        came: united([...without(one.came, other.went), ...without(other.came, one.went)]),
        went: united([...without(one.went, other.came), ...without(other.went, one.came)]),
    };
}

function effectOfAll(messages) {
    return messages.map((message) => {
        const { came, went } = effectOf(message);
        return { came: united(came), went: united(went) };
    }).reduce(both, { came: [], went: [] });
}

const doesNothing = ({ came, went }) => came.length + went.length === 0;

function* cutUp(ranges) {
    for (let beg = 0; beg < ranges.length; beg += MOST_RANGES) yield ranges.slice(beg, beg + MOST_RANGES);
}

// Where a delta changes a text, in the text after it.
function stretchOf(delta) {
    let at = 0, beg, end;
    for (const { retain = 0, insert = '', delete: gone = 0, looks } of delta) {
        const isChange = insert.length + gone > 0 || looks !== undefined;
        if (isChange) beg ??= at;
        at += retain + insert.length;
        if (isChange) end = at;
    }
    return { beg, end };
}

// The edits of one editor of a text, from when this is made on.
export class UndoManager {
    #text;
    #origins;
    #captureTime;
    #selection;
    #now;
    // What can be taken back, and done again: what each edit showed and hid, and the selection of before.
    #done = [];
    #undone = [];
    // When the last edit was made that the next one may join.
    #joins = -Infinity;
    // What the edit did by which one is taken back.
    #made;
    #listeners = new Set();
    #end;

    constructor(text, { origins, captureTime = CAPTURE_TIME, selection = () => undefined, now = Date.now } = /** @type {any} */ ({})) {
        this.#text = text;
        this.#origins = origins === undefined ? undefined : new Set(origins);
        this.#captureTime = captureTime;
        this.#selection = selection;
        this.#now = now;
        this.#end = text.subscribe((edit) => this.#edited(edit));
    }

    #isTracked(origin) {
        return this.#origins === undefined ? !(origin instanceof UndoManager) : this.#origins.has(origin);
    }

    #edited(edit) {
        const { own, origin, delta } = edit;
        if (origin === this) {
            this.#made = { ...effectOfAll(madeBy(edit)), ...stretchOf(delta) };
        } else if (own && this.#isTracked(origin)) {
            const effect = effectOfAll(madeBy(edit));
            if (!doesNothing(effect)) this.#add(effect);
        }
    }

    #add(effect) {
        const now = this.#now();
        const last = this.#done.at(-1);
        if (last === undefined || now - this.#joins >= this.#captureTime) this.#done.push({ ...effect, selection: this.#selection() });
        else if (doesNothing(Object.assign(last, both(last, effect)))) this.#done.pop();
        this.#undone = [];
        this.#joins = now;
        this.#tell();
    }

    #tell() {
        for (const listener of [...this.#listeners]) listener(this);
    }

    #reverse({ came, went }) {
        this.#made = { came: [], went: [] };
        return this.#text.batch(() => {
            for (const ranges of cutUp(came)) this.#text.deleteNames(ranges);
            for (const ranges of cutUp(went)) this.#text.restoreNames(ranges);
        }, this);
    }

    // Takes back the last edit that still does something, and has it done again by the other list.
    #move(from, to) {
        if (this.#text.isInBatch) throw new TypeError('a batch is open, which is one change');
        this.stopCapturing();
        // (what does nothing may hand out what couldn't be kept before)
        const chunks = [];
        while (from.length > 0) {
            const item = from.at(-1), selection = this.#selection();
            chunks.push(...this.#reverse(item));
            const { came, went, beg, end } = this.#made;
            from.pop();
            if (doesNothing({ came, went })) continue;
            to.push({ came, went, selection });
            this.#tell();
            return { chunks, selection: item.selection, beg, end };
        }
        return chunks.length > 0 ? { chunks, selection: undefined, beg: undefined, end: undefined } : undefined;
    }

    undo() {
        return this.#move(this.#done, this.#undone);
    }

    redo() {
        return this.#move(this.#undone, this.#done);
    }

    get canUndo() {
        return this.#done.length > 0;
    }

    get canRedo() {
        return this.#undone.length > 0;
    }

    stopCapturing() {
        this.#joins = -Infinity;
    }

    clear() {
        this.#done = [];
        this.#undone = [];
        this.#tell();
    }

    subscribe(listener) {
        this.#listeners.add(listener);
        return () => { this.#listeners.delete(listener); };
    }

    close() {
        this.#end();
        this.#listeners.clear();
    }
}
