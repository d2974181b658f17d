// What happens to a text, for those who ask for it and those who listen.
import { Log, PUT, allAfter, composed, deltaOf, filled } from './delta.js';

function calls(listener, edit) {
    try {
        listener(edit);
    } catch (why) {
        // (who edits gets the messages all the same)
        queueMicrotask(() => { throw why; });
    }
}

// The messages of the edits that listeners are called with, also of those whose messages may not be sent yet.
const MADE = new WeakMap();
export const madeBy = (edit) => MADE.get(edit);

// Of a text, of a call that answers what changed of it since it was called last, and of one that says whether all of it is kept.
export class Feed {
    #text;
    #newChanges;
    #isKept;
    // Messages that listeners don't have yet, since they weren't kept.
    /** @type {any[]} */
    #unsent = [];
    // What `changes` is to answer; what `delta` is to answer, once that was asked for.
    #log = new Log();
    #runs;
    #listeners = new Set();
    // Edits that listeners are to be called with, the one first that they are called with now.
    #queue = [];
    // What is done as one, while it is: its origin, and what was done since that was told.
    #open;

    constructor(text, newChanges, isKept) {
        this.#text = text;
        this.#newChanges = newChanges;
        this.#isKept = isKept;
    }

    #isOn() {
        return this.#listeners.size > 0 || this.#runs !== undefined;
    }

    #drained() {
        const changes = this.#newChanges();
        changes.forEach((change) => this.#log.push(change));
        return changes;
    }

    changes() {
        this.#drained();
        return this.#log.take();
    }

    // An edit was made here, or others' were taken in.
    noted(own, messages = []) {
        if (!this.#isOn()) return;
        const steps = filled(composed(this.#drained()), this.#text);
        if (this.#open === undefined) {
            this.#tell({ own, origin: undefined, parts: [steps], messages });
            return;
        }
        if (this.#open.edit?.own !== own) {
            this.#flush();
            this.#open.edit = { own, origin: this.#open.origin, parts: [], messages: [] };
        }
        this.#open.edit.parts.push(steps);
        this.#open.edit.messages.push(...messages);
    }

    #flush() {
        const { edit } = this.#open;
        this.#open.edit = undefined;
        if (edit !== undefined) this.#tell(edit);
    }

    #tell({ own, origin, parts, messages }) {
        const steps = allAfter(parts);
        this.#run(own, origin, steps);
        if (this.#listeners.size === 0) return;
        this.#unsent.push(...messages);
        const edit = { delta: deltaOf(steps), own, origin, messages: this.#isKept() ? this.#unsent.splice(0) : [] };
        MADE.set(edit, messages);
        this.#queue.push(edit);
        // (one that a listener makes is told after the one that it is told of)
        if (this.#queue.length > 1) return;
        for (; this.#queue.length > 0; this.#queue.shift()) {
            for (const listener of [...this.#listeners]) calls(listener, this.#queue[0]);
        }
    }

    // Tells the messages that are kept now, if there are some.
    sendsRest() {
        if (this.#unsent.length > 0 && this.#open === undefined) this.#tell({ own: true, origin: undefined, parts: [], messages: [] });
    }

    #run(own, origin, steps) {
        if (this.#runs === undefined || steps.length === 0) return;
        const last = this.#runs.at(-1);
        if (last !== undefined && last.own === own && last.origin === origin) last.parts.push(steps);
        else this.#runs.push({ own, origin, parts: [steps] });
    }

    delta() {
        if (this.#runs === undefined) {
            this.#drained();
            this.#runs = [];
            const { length } = this.#text;
            if (length > 0) this.#run(false, undefined, filled([{ step: PUT, length }], this.#text));
        }
        const runs = this.#runs;
        this.#runs = [];
        return runs.map(({ own, origin, parts }) => ({ delta: deltaOf(allAfter(parts)), own, origin }))
            .filter(({ delta }) => delta.length > 0);
    }

    subscribe(listener) {
        if (typeof listener !== 'function') throw new TypeError('a listener is a function');
        if (!this.#isOn()) this.#drained();
        const called = (edit) => listener(edit);
        this.#listeners.add(called);
        return () => { this.#listeners.delete(called); };
    }

    // Has calls be one change, and answers whether they are no part of another one.
    batch(calls, origin) {
        if (this.#open !== undefined) {
            calls();
            return false;
        }
        this.#open = { origin, edit: undefined };
        try {
            calls();
        } finally {
            // (what a listener edits then is no part of it)
            const { edit } = this.#open;
            this.#open = undefined;
            if (edit !== undefined) this.#tell(edit);
        }
        return true;
    }

    get isOpen() {
        return this.#open !== undefined;
    }
}
