// What is done to a text, as steps from its begin on, and as the changes that make it, one after the other.
import { Buffer } from './host.js';

export const INSERT = 1;
export const DELETE = 2;
export const REPLACE = 3;

// -- steps. Each lists what is done to how many units; those that none reaches stay. One that puts units in may have these as `data`, and
// one that puts in or dresses the looks that they get.

export const KEEP = 0;
export const DRESS = 1;
export const CUT = 2;
export const PUT = 3;
// By the kinds of changes.
const STEPS = [KEEP, PUT, CUT, DRESS];
const GROWTH = [0, 1, -1, 0];

/** @typedef {{ step: number, length: number, data?: any, looks?: any }} Step */

export const DEFAULT_LOOKS = { font: 'Oberon10.Scn.Fnt', colour: 1, offset: 0 };

export function isAlike(one, other) {
    return one === other || (one !== undefined && other !== undefined && one.font === other.font && one.colour === other.colour &&
        one.offset === other.offset);
}

function joined(one, other) {
    return typeof one === 'string' ? one + other : Buffer.concat([one, other]);
}

/** @type {(steps: Step[], step: Step) => void} */
export function add(steps, { step, length, data, looks }) {
    const last = steps.at(-1);
    if (last === undefined || last.step !== step || !isAlike(last.looks, looks)) {
        steps.push({ step, length, data, looks });
        return;
    }
    last.length += length;
    if (data !== undefined) last.data = joined(last.data, data);
}

function part(it, from, length) {
    if (length === it.length) return it;
    return { ...it, length, data: it.data?.slice(from, from + length) };
}

// What one step does to units, and then another; nothing remains of those that were put in and cut out.
function stepAfter(did, does) {
    if (does.step === KEEP) return did;
    if (did.step !== PUT) return { ...does, length: did.length };
    return does.step === DRESS ? { ...did, looks: does.looks } : undefined;
}

// What steps do, the one after the other.
function after(first, then) {
    const made = [];
    let i = 0, j = 0, did = 0, does = 0;
    while (i < first.length && j < then.length) {
        const here = first[i], there = then[j];
        const long = here.length - did, wide = there.length - does;
        if (here.step === CUT) {
            add(made, part(here, did, long));
            i += 1;
            did = 0;
            continue;
        }
        if (there.step === PUT) {
            add(made, part(there, does, wide));
            j += 1;
            does = 0;
            continue;
        }
        const common = Math.min(long, wide);
        const step = stepAfter(part(here, did, common), there);
        if (step !== undefined) add(made, step);
        did += common;
        does += common;
        if (did === here.length) { i += 1; did = 0; }
        if (does === there.length) { j += 1; does = 0; }
    }
    for (; i < first.length; i += 1, did = 0) add(made, part(first[i], did, first[i].length - did));
    for (; j < then.length; j += 1, does = 0) add(made, part(then[j], does, then[j].length - does));
    return made;
}

// What lists of steps do one after the other: each is walked as often as their number can be halved.
export function allAfter(lists) {
    while (lists.length > 1) {
        const halved = [];
        for (let i = 0; i < lists.length; i += 2) halved.push(i + 1 < lists.length ? after(lists[i], lists[i + 1]) : lists[i]);
        lists = halved;
    }
    return lists[0] ?? [];
}

// Steps with what they put in, and the looks that they give, as a text shows them after it.
export function filled(steps, text) {
    const found = [];
    let beg = 0;
    for (const { step, length } of steps) {
        if (step === KEEP || step === CUT) {
            add(found, { step, length });
        } else {
            for (const { beg: from, end, ...looks } of text.runs(beg, beg + length)) {
                const data = step === PUT ? text.units === 'bytes' ? text.bytes(from, end) : text.slice(from, end) : undefined;
                add(found, { step, length: end - from, data, looks });
            }
        }
        if (step !== CUT) beg += length;
    }
    return found;
}

// -- changes: each has a kind, and a range of the text after an insertion, else of the text before

export function growth(changes) {
    return changes.reduce((sum, { kind, beg, end }) => sum + GROWTH[kind] * (end - beg), 0);
}

export function composed(changes) {
    return allAfter(changes.map(({ kind, beg, end }) => [{ step: KEEP, length: beg }, { step: STEPS[kind], length: end - beg }]));
}

// The changes that are done by steps.
export function changesOf(steps) {
    const kinds = [undefined, REPLACE, DELETE, INSERT];
    const changes = [];
    let beg = 0;
    for (const { step, length } of steps) {
        const end = beg + length;
        if (step !== KEEP && length > 0) changes.push({ kind: kinds[step], beg, end });
        if (step !== CUT) beg = end;
    }
    return changes;
}

// Changes that are kept until somebody takes them: as many as were put, or fewer that do the same.
export class Log {
    static LEAST = 1024;

    #changes = [];
    #most = Log.LEAST;

    push(change) {
        if (change.beg === change.end) return;
        this.#changes.push(change);
        if (this.#changes.length < this.#most) return;
        this.#changes = changesOf(composed(this.#changes));
        this.#most = Math.max(Log.LEAST, 2 * this.#changes.length);
    }

    take() {
        const changes = this.#changes;
        this.#changes = [];
        this.#most = Log.LEAST;
        return changes;
    }
}

// -- deltas, as users have them

// Steps as a delta: between two stretches that stay what is deleted comes first, and then what is inserted.
export function deltaOf(steps) {
    /** @type {any[]} */
    const delta = [];
    let cut = 0, put = /** @type {any[]} */ ([]);
    const end = () => {
        if (cut > 0) delta.push({ delete: cut });
        delta.push(...put);
        [cut, put] = [0, []];
    };
    for (const { step, length, data, looks } of steps.filter((one) => one.length > 0)) {
        if (step === CUT) {
            cut += length;
        } else if (step === PUT) {
            put.push(isAlike(looks, DEFAULT_LOOKS) ? { insert: data } : { insert: data, looks });
        } else {
            end();
            delta.push(step === KEEP ? { retain: length } : { retain: length, looks });
        }
    }
    end();
    while (delta.at(-1)?.retain !== undefined && delta.at(-1).looks === undefined) delta.pop();
    return delta;
}
