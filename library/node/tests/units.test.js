// Positions in UTF-16 units against plain bytes, against positions in bytes, and against the program that plays scripts.
import { strict as assert } from 'node:assert';
import { spawnSync } from 'node:child_process';
import { fileURLToPath } from 'node:url';

import { part, vialshoal } from './here.js';
import { drawn } from './random.js';

const { Text } = vialshoal;
const { Positions } = await part('positions.js');

const PROGRAM = process.env.VIALSHOAL_PROGRAM ?? fileURLToPath(new URL('../../../bin/built', import.meta.url));
const IS_BUILT = spawnSync(PROGRAM, ['--help']).status === 0;
const ROUNDS = 400;
// Whole characters of one to four bytes, and bytes that are of none until others stand beside them.
const ATOMS = ['61', '6263', 'c3a9', 'e282ac', 'f09f9880', '80', 'e2', '82', 'ac', 'f09f', '9880', 'eda080', 'c0', 'c3', 'f490',
    'f0', 'efbfbd'].map((hex) => Buffer.from(hex, 'hex'));
const UTF_16 = { units: 'utf-16' };

// A character's units where one begins with these bytes: the longest that the platform's decoder takes as one.
function characters(bytes) {
    const found = [];
    const strict = new TextDecoder('utf-8', { fatal: true, ignoreBOM: true });
    for (let at = 0; at < bytes.length;) {
        let shown = '\ufffd', length = 1;
        for (let long = Math.min(4, bytes.length - at); long >= 1; long -= 1) {
            try {
                const one = strict.decode(bytes.subarray(at, at + long));
                if ([...one].length !== 1) continue;
                [shown, length] = [one, long];
                break;
            } catch {
                // (no character)
            }
        }
        found.push({ shown, at, length });
        at += length;
    }
    return found;
}

function shownOf(bytes) {
    return characters(bytes).map(({ shown }) => shown).join('');
}

function isWithinPair(shown, pos) {
    return /[\ud800-\udbff]/.test(shown[pos - 1] ?? '') && /[\udc00-\udfff]/.test(shown[pos] ?? '');
}

// A position between the characters of a text, and how many bytes stand before it.
function place(draw, shown) {
    let pos = draw(shown.length + 1);
    while (isWithinPair(shown, pos)) pos -= 1;
    return pos;
}

function edited(draw, text) {
    const shown = `${text}`;
    const [beg, end] = [place(draw, shown), place(draw, shown)].sort((a, b) => a - b);
    const byte = (pos) => text.bytes(0, pos).length;
    switch (draw(6)) {
        case 0: return [`cut 1 ${byte(beg)} ${byte(end)}`, text.delete(beg, end)];
        case 1: return [`looks 1 ${byte(beg)} ${byte(end)} colour=${end % 16}`, text.changeLooks(beg, end, { colour: end % 16 })];
        case 2: return draw(2) === 0 ? ['restore 1', text.restore()] : [`recall 1 ${byte(beg)}`, text.recall(beg)];
        default: {
            const data = Buffer.concat(Array.from({ length: draw(6) }, () => ATOMS[draw(ATOMS.length)]));
            const spelled = [...data].map((one) => `\\${one.toString(16).padStart(2, '0')}`).join('');
            return [`type 1 ${byte(beg)} ${spelled}`, text.insert(beg, data)];
        }
    }
}

// What one sees who has nothing of a text but its changes; what is put in is unknown until the end.
class Reader {
    #shown = [];

    follows(text) {
        for (const { kind, beg, end } of text.changes()) {
            if (kind === 'insert') this.#shown.splice(beg, 0, ...Array(end - beg).fill(undefined));
            if (kind === 'delete') this.#shown.splice(beg, end - beg);
        }
        const shown = `${text}`.split('');
        assert.strictEqual(this.#shown.length, shown.length);
        this.#shown.forEach((unit, at) => assert.ok(unit === undefined || unit === shown[at]));
        this.#shown = shown;
    }
}

function agrees(text) {
    const bytes = text.bytes();
    const found = characters(bytes);
    const shown = shownOf(bytes);
    assert.strictEqual(`${text}`, shown);
    assert.strictEqual(text.length, shown.length);
    const names = text.names(0, text.length);
    assert.strictEqual(names.length, found.length);
    let pos = 0;
    found.forEach((one, index) => {
        const end = pos + one.shown.length;
        assert.strictEqual(text.slice(pos, end), one.shown);
        assert.deepStrictEqual(text.bytes(pos, end), bytes.subarray(one.at, one.at + one.length));
        assert.deepStrictEqual(text.find(names[index]), { pos: end, isShown: true });
        pos = end;
    });
}

function runsInUnits(text, bytes) {
    const unit = (end) => characters(bytes).filter(({ at }) => at < end).reduce((sum, { shown }) => sum + shown.length, 0);
    return text.runs().map((run) => ({ ...run, beg: unit(run.beg), end: unit(run.end) })).filter(({ beg, end }) => beg < end);
}

function taken(messages, ...words) {
    const text = new Text(...words);
    for (const message of messages) text.take(message);
    return text;
}

// A text as it was is a text that took the messages up to these fronts alone; what waits there builds on others.
function hasAPast(draw, text) {
    const log = [...text.since([])];
    const fronts = new Map([[1, draw(14)], [2, draw(14)]]);
    const past = text.past(fronts);
    const fresh = taken(log.filter((one) => one.readUInt32BE(8) <= fronts.get(one.readUInt16BE(6))), 1, 9, UTF_16);
    agrees(past);
    assert.deepStrictEqual([past.bytes(), past.runs(), past.length], [fresh.bytes(), fresh.runs(), fresh.length]);
    assert.deepStrictEqual(past.names(0, past.length), fresh.names(0, fresh.length));
    const all = taken(log, 1, 9);
    assert.deepStrictEqual([all.bytes(), [...all.since([])]], [text.bytes(), log]);
    [past, fresh, all].forEach((one) => one.close());
}

function meet(draw) {
    const a = new Text(1, 1, UTF_16), b = new Text(1, 2), reader = new Reader();
    const events = [];
    for (let edits = draw(12); edits > 0; edits -= 1) {
        events.push(edited(draw, a));
        if (draw(3) === 0) reader.follows(a);
    }
    agrees(a);
    b.merge(a);
    for (let edits = draw(6); edits > 0; edits -= 1) {
        const beg = draw(b.length + 1);
        if (draw(2) === 0) b.insert(beg, ATOMS[draw(ATOMS.length)]);
        else b.delete(beg, Math.min(beg + 2, b.length));
        if (b.length > 0) b.changeLooks(draw(b.length), b.length, { offset: draw(5) });
    }
    const sent = Array.from({ length: draw(4) }, () => edited(draw, a)[1]).flat();
    a.merge(b);
    reader.follows(a);
    agrees(a);
    sent.forEach((message) => b.take(message));
    assert.deepStrictEqual(a.bytes(), b.bytes());
    assert.deepStrictEqual(a.runs(), runsInUnits(b, b.bytes()));
    hasAPast(draw, a);
    const again = Text.load(a.store(), UTF_16);
    new Reader().follows(again);
    agrees(again);
    [a, b, again].forEach((text) => text.close());
    return events;
}

function playedByTheProgram(events) {
    const script = events.map(([event]) => `1 ${event}\n`).join('');
    const { stdout } = spawnSync(PROGRAM, { input: script, encoding: 'latin1' });
    const sent = stdout.split('\n').filter((line) => line.startsWith('send ')).map((line) => line.split(' ')[2]);
    assert.deepStrictEqual(sent, events.flatMap(([, messages]) => messages.map((message) => message.toString('hex'))));
}

for (const block of [3, 16, 2048]) {
    Positions.BLOCK = block;
    for (let seed = 1; seed <= ROUNDS; seed += 1) {
        const events = meet(drawn(seed));
        if (seed % 40 === 0 && IS_BUILT) playedByTheProgram(events);
    }
}

const text = new Text(1, 1, UTF_16);
text.insert(0, 'a\u{1f600}b');
assert.deepStrictEqual([text.length, text.bytes().length, text.slice(1, 3)], [4, 6, '\u{1f600}']);
for (const call of [() => text.insert(2, 'x'), () => text.insert(5, 'x'), () => text.insert(-1, 'x'), () => text.delete(1, 2),
    () => text.delete(3, 1), () => text.bytes(0, 5), () => text.names(2, 3), () => text.recall(2)]) {
    assert.throws(call, { name: 'RangeError', code: 'OUT_OF_TEXT' });
}
assert.throws(() => new Text(1, 1, { units: 'lines' }), TypeError);
assert.deepStrictEqual([0, 1, 2, 3, 4, 5].map((offset) => text.find({ site: 1, offset }).pos), [1, 3, 3, 3, 3, 4]);
text.insert(1, '\ud800');
assert.strictEqual(`${text}`, 'a\ufffd\u{1f600}b');
// What changed is noted once it was asked for.
const fresh = new Text(1, 1, UTF_16);
fresh.insert(0, 'ab');
fresh.delete(0, 1);
assert.deepStrictEqual(fresh.changes(), [{ kind: 'insert', beg: 0, end: 1 }]);
fresh.insert(1, 'c');
fresh.delete(0, 1);
assert.deepStrictEqual(fresh.changes(), [{ kind: 'insert', beg: 1, end: 2 }, { kind: 'delete', beg: 0, end: 1 }]);
// What was put in last isn't what others put in, nor what was refused, nor what its bytes became.
const other = new Text(1, 2), bytes = Buffer.from('uvw');
for (const before of [() => text.insert(0, ''), () => text.insert(1, 'uvw'), () => text.insert(0, bytes),
    () => assert.throws(() => text.insert(0, 'u'.repeat(2 ** 24 + 1))), () => { text.insert(0, 'uvw'); text.delete(0, 2); },
    () => { text.insert(0, 'uvw'); agrees(text); }]) {
    before();
    bytes.fill(0x80);
    text.take(other.insert(0, 'p\u00e9')[0]);
    agrees(text);
}
// An edit may change more stretches than it tells of at once, and others follow before a position is asked for.
const many = new Text(1, 1, UTF_16);
many.insert(0, 'a\u00e9'.repeat(40));
const letters = Array.from({ length: 40 }, (_, at) => many.nameRanges(2 * at, 2 * at + 1)[0]);
for (const edit of ['deleteNames', 'restoreNames', 'deleteNames']) {
    many[edit](letters);
    many.restoreNames(letters.slice(0, 2));
    many.deleteNames(letters.slice(1, 2));
    agrees(many);
    many.insert(many.length - 1, 'x');
    agrees(many);
}
many.close();
for (const call of [() => many.length, () => many.slice(0, 0), () => many.insert(1000, 'a'), () => many.insert(0, 'a')]) {
    assert.throws(call, { code: 'NOT_OPEN' });
}
console.log('UTF-16 units: all is so');
