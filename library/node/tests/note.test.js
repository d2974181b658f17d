// Notes: what counts of entries is shown, whatever order they come in, and own edits are said by entries. In Node, pages and workers.
import { assert, Buffer, part, rounds, vialshoal } from './here.js';
import { drawn } from './random.js';

const { Note, NoteText, Past, Refused, Shown, Text } = vialshoal;
const { calls } = await part('host.js');

const [KEY, ANN, BOB, RANK] = ['k', 'A', 'B', 'r'].map((letter) => Buffer.from(letter.repeat(32)));
const AUTHORS = { 1: ANN, 2: BOB };

// A note that Ann founded as site 1, where Bob has claimed 2.
function opened(site) {
    const note = new Note(site, { key: KEY, founder: ANN, number: 1 });
    note.claim(BOB, 2, RANK);
    note.update();
    return note;
}

// Hands entries to a note, which shows what counts then.
function give(entries, note) {
    entries.forEach((entry) => note.add(entry));
    note.update();
}

// Two people meet.
const ann = opened(1), bob = opened(2), ours = ann.text(), theirs = bob.text(1, { units: 'utf-16' });
assert.ok(ours instanceof NoteText && ours instanceof Shown && !(ours instanceof Text));
ours.insert(0, 'Oberon');
const entries = ann.say(ANN);
const [{ head, body }] = entries;
assert.deepStrictEqual([head.author.equals(ANN), head.before.equals(Buffer.from(new Uint8Array(32))), head.first, head.count, head.site, head.text],
    [true, true, 1, 1, 1, 1]);
assert.deepStrictEqual(ann.say(ANN), []);
give(entries, bob);
theirs.insert(6, '\u{1f600}!');
const said = bob.say(BOB);
give([...said, ...entries, ...said], ann);
assert.deepStrictEqual([`${ours}`, `${theirs}`, ours.length, theirs.length], ['Oberon\u{1f600}!', 'Oberon\u{1f600}!', 11, 9]);
assert.deepStrictEqual(ours.changes(), [{ kind: 'insert', beg: 0, end: 6 }, { kind: 'insert', beg: 6, end: 11 }]);
assert.deepStrictEqual(theirs.changes(), [{ kind: 'insert', beg: 0, end: 9 }]);
assert.deepStrictEqual([[...ours.fronts()], ours.front(2), ours.front(3), ours.number, ann.site], [[[1, 1], [2, 1]], 1, 0, 1, 1]);
assert.deepStrictEqual(ours.names(5, 7), [{ site: 1, offset: 5 }, { site: 2, offset: 0 }]);
assert.deepStrictEqual(ours.nameRanges(0, 11), [{ site: 1, offset: 0, length: 6 }, { site: 2, offset: 0, length: 5 }]);
assert.deepStrictEqual(theirs.find({ site: 2, offset: 4 }), { pos: 9, isShown: true });
assert.throws(() => theirs.insert(7, 'x'), { code: 'OUT_OF_TEXT' });
const pasts = [ours.past([[1, 1]]), theirs.past(new Map([[1, 1]]))];
assert.deepStrictEqual(pasts.map((past) => [past instanceof Past, `${past}`, past.length]), Array(2).fill([true, 'Oberon', 6]));
pasts.forEach((past) => past.close());
const anchor = theirs.anchor(6);
ours.delete(0, 2);
ours.deleteNames([{ site: 1, offset: 3, length: 1 }]);
ours.changeLooks(0, 1, { font: 'Syntax12.Scn.Fnt', offset: -3 });
give(ann.say(ANN), bob);
assert.deepStrictEqual([`${theirs}`, theirs.position(anchor), theirs.slice(1, 3)], ['eon\u{1f600}!', 3, 'on']);
assert.deepStrictEqual(theirs.runs()[0], { beg: 0, end: 1, font: 'Syntax12.Scn.Fnt', colour: 1, offset: -3 });
// Looks are an edit of their own, and such as are none put nothing in.
theirs.insert(3, '\u20ac', { colour: 3 });
give(bob.say(BOB), ann);
assert.deepStrictEqual(ours.runs(3, 7).map(({ beg, end, colour }) => [beg, end, colour]), [[3, 6, 3], [6, 7, 1]]);
theirs.deleteNames(theirs.nameRanges(3, 4));
for (const looks of [{ font: '1.Fnt' }, { colour: 16 }]) assert.throws(() => theirs.insert(0, 'x', looks), { code: 'NO_NUMBER' });
give(bob.say(BOB), ann);
assert.strictEqual(`${ours}`, `${theirs}`);
ours.restoreNames([{ site: 1, offset: 0, length: 6 }]);
ann.update();
assert.strictEqual(`${ours}`, 'eon\u{1f600}!');

// Texts are apart.
for (const number of [2, 16]) ann.text(number).insert(0, `${number}`);
const others = ann.say(ANN);
assert.deepStrictEqual(others.map((entry) => entry.head.text), [2, 16]);
give(others.reverse(), bob);
assert.deepStrictEqual([2, 3, 16].map((number) => `${bob.text(number)}`), ['2', '', '16']);

// To the call of this name memory is refused at one turn, before it does anything, or once it has.
function refusing(name, turn, isDone, work) {
    const call = calls[name];
    let turns = 0;
    calls[name] = (...words) => {
        turns += 1;
        const isRefused = turns === turn, answer = isRefused && !isDone ? [] : call(...words);
        return isRefused ? [7] : answer;
    };
    try {
        work();
    } finally {
        calls[name] = call;
    }
}

// What memory was refused to is said by the next call, whatever comes in between.
for (const [name, turn] of [['noteAdd', 1], ['noteAdd', 2], ['noteUpdate', 1]]) {
    for (const [isDone, isUpdated] of [[false, false], [false, true], [true, false], [true, true]]) {
        const one = opened(1), other = opened(2);
        one.text(1).insert(0, 'one');
        one.text(2).insert(0, 'two');
        refusing(name, turn, isDone, () => assert.throws(() => one.say(ANN), { code: 'OUT_OF_MEMORY' }));
        if (isUpdated) one.update();
        one.text(1).insert(3, '!');
        give(one.say(ANN), other);
        for (const note of [one, other]) assert.deepStrictEqual([1, 2].map((number) => `${note.text(number)}`), ['one!', 'two']);
        assert.deepStrictEqual(one.say(ANN), []);
        [one, other].forEach((note) => note.close());
    }
}

// Changes are told to one, who may count units; what only reads bytes may be there, too.
const alone = opened(1), units = alone.text(1, { units: 'utf-16' }), seen = alone.text();
const isTold = (text) => (error) => error instanceof TypeError && error.message.startsWith(`another NoteText is told the changes of text ${text}`);
for (const wrong of [() => alone.text(1, { units: 'utf-16' }), () => seen.changes()]) assert.throws(wrong, isTold(1));
units.insert(0, '\u20acuro');
units.insert(1, '!');
assert.deepStrictEqual([`${units}`, `${seen}`], ['\u20ac!uro', '\u20ac!uro']);
assert.deepStrictEqual(alone.text(2).changes(), []);
assert.throws(() => alone.text(2, { units: 'utf-16' }), isTold(2));
alone.close();

// A number that was used twice: all who have both show the same one, and tell that all gave way.
const here = opened(1), there = opened(1), texts = [here.text(), there.text(1, { units: 'utf-16' })];
const both = [[here, 'one'], [there, 'three']].flatMap(([note, word]) => {
    note.text().insert(0, word);
    return note.say(ANN);
});
const told = texts.map((text) => text.changes().map(({ kind, end }) => `${kind} ${end}`));
assert.deepStrictEqual(told, [['insert 3'], ['insert 5']]);
[here, there].forEach((note) => give(both, note));
const [shown] = texts.map(String);
assert.ok(texts.every((text) => `${text}` === shown) && ['one', 'three'].includes(shown));
const [lost, was] = shown === 'one' ? [texts[1], 5] : [texts[0], 3];
assert.deepStrictEqual(lost.changes(), [{ kind: 'delete', beg: 0, end: was }, { kind: 'insert', beg: 0, end: shown.length }]);

// At random: notes that were given the same show the same, and their changes lead there.
for (let seed = 1; seed <= rounds(40); seed += 1) {
    const draw = drawn(seed), made = [];
    const people = [1, 2].map((site) => {
        const note = opened(site);
        return { site, note, text: note.text(1, { units: 'utf-16' }), length: 0 };
    });
    const follow = (one) => {
        for (const { kind, beg, end } of one.text.changes()) one.length += { insert: end - beg, delete: beg - end, replace: 0 }[kind];
        assert.strictEqual(one.length, one.text.length);
    };
    for (let step = 0; step < 30; step += 1) {
        const one = people[draw(2)], { note, site, text } = one, what = draw(6), beg = draw(text.length + 1);
        try {
            if (what < 3) text.insert(beg, ['a', 'bc', '\u20ac', '\u{1f600}'][draw(4)]);
            else if (what === 3) text.delete(beg, Math.min(beg + draw(4), text.length));
            else {
                made.push(...note.say(AUTHORS[site]));
                give(made.filter(() => draw(2) === 0), note);
            }
        } catch (why) {
            // (within a pair)
            if (why.code !== 'OUT_OF_TEXT') throw why;
        }
        follow(one);
    }
    people.forEach(({ note, site }) => made.push(...note.say(AUTHORS[site])));
    const reader = opened(3);
    for (const note of [...people.map((one) => one.note), reader]) give([...made].sort(() => draw(3) - 1), note);
    people.forEach(follow);
    const [one, other] = people.map(({ text }) => `${text}`);
    assert.deepStrictEqual([one, `${reader.text()}`], [other, other]);
    [...people.map(({ note }) => note), reader].forEach((note) => note.close());
}

// What is none is refused.
const refused = (number) => (error) => error.number === number;
for (const wrong of [Buffer.from(''), body.subarray(0, -1), Buffer.concat([body, body])]) {
    assert.throws(() => ann.add({ head, body: wrong }), (error) => error instanceof Refused && error.number === 1);
}
assert.throws(() => new Note(1, { key: KEY, founder: ANN, base: [Buffer.from('none')] }), refused(1));
for (const call of [() => ann.text(0), () => ann.text(17), () => new Note(0, { key: KEY, founder: ANN }), () => ann.claim(BOB, 0, RANK),
    () => ann.add({ head: { ...head, text: 0 }, body }), () => ours.changeLooks(0, 1, {})]) assert.throws(call, refused(105));
assert.throws(() => ours.insert(99, 'x'), refused(103));
assert.throws(() => ours.deleteNames([{ site: 9, offset: 0, length: 1 }]), refused(106));
for (const call of [() => ann.say(BOB.subarray(1)), () => new Note(1, { key: KEY, founder: BOB.subarray(1) })]) assert.throws(call, RangeError);
for (const call of [() => ann.add({}), () => ann.add(body), () => ann.say('x'), () => new Past(new Text(1, 1).past([]), []), () => new NoteText({}, 1),
    () => ann.text(1, { units: 'lines' })]) assert.throws(call, TypeError);
ann[Symbol.dispose]();
for (const call of [() => ours.length, () => `${ours}`, () => ours.insert(0, 'x'), () => ann.say(ANN), () => ann.update(), () => ours.changes()]) {
    assert.throws(call, refused(101));
}
console.log('note: all is so');
