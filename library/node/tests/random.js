// Edits at random, and one who does what deltas say. In Node, pages and workers.
import { assert, Buffer } from './here.js';

const PLAIN = { font: 'Oberon10.Scn.Fnt', colour: 1, offset: 0 };
// Characters, and bytes that are of none until others stand beside them.
const ATOMS = ['61', '6263', 'c3a9', 'e282ac', 'f09f9880', 'c3', 'a9', 'e2', '82ac', 'f09f', '9880'].map((hex) => Buffer.from(hex, 'hex'));

// Numbers below a bound, drawn from a seed (xorshift).
export function drawn(seed) {
    let state = seed;
    return (bound) => {
        state ^= state << 13;
        state ^= state >>> 17;
        state ^= state << 5;
        return (state >>> 0) % bound;
    };
}

// A range between the borders of characters.
export function range(draw, text) {
    /** @type {any[]} */
    const borders = [0];
    if (text.units === 'bytes') borders.push(...Array.from({ length: text.length }, (_, at) => at + 1));
    else for (const one of `${text}`) borders.push(borders.at(-1) + one.length);
    return [borders[draw(borders.length)], borders[draw(borders.length)]].sort((one, other) => one - other);
}

export function edited(draw, text) {
    const [beg, end] = range(draw, text);
    switch (draw(6)) {
        case 0: return text.delete(beg, end);
        case 1: return text.changeLooks(beg, end, { colour: draw(4), offset: draw(3) });
        case 2: return draw(2) === 0 ? text.restore() : text.recall(beg);
        default: return text.insert(beg, ATOMS[draw(ATOMS.length)], draw(3) === 0 ? { colour: draw(3) } : undefined);
    }
}

// The units of what a text shows, or of what a delta puts in.
export const unitsOf = (data) => (typeof data === 'string' ? data.split('') : [...data]);
export const shownOf = (text) => (text.units === 'bytes' ? text.bytes() : `${text}`);

// One who has nothing of a text but deltas: each unit, and the looks that it has.
export class Reader {
    shown = [];

    does(delta) {
        let at = 0;
        for (const { retain = 0, insert = '', delete: gone = 0, looks } of delta) {
            const put = unitsOf(insert).map((unit) => ({ unit, looks: looks ?? PLAIN }));
            assert.ok(retain + put.length + gone > 0 && at + retain + gone <= this.shown.length, delta);
            this.shown.splice(at, gone, ...put);
            if (looks !== undefined) this.shown.slice(at, at + retain).forEach((one) => { one.looks = looks; });
            at += retain + put.length;
        }
        assert.ok(delta.length === 0 || delta.at(-1).retain === undefined || delta.at(-1).looks !== undefined, delta);
        return this;
    }

    isAs(text) {
        assert.deepEqual(this.shown.map(({ unit }) => unit), unitsOf(shownOf(text)));
        const looks = text.runs().flatMap(({ beg, end, ...run }) => Array(end - beg).fill(run));
        assert.deepEqual(this.shown.map((one) => one.looks), looks);
    }
}
