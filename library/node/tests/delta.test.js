// What changed, as deltas, for those who ask and those who listen: against plain text that they are done to. In Node, pages and workers.
import { assert, Buffer, rounds, vialshoal } from './here.js';
import { Reader, drawn, edited } from './random.js';

const { Text } = vialshoal;
const ROUNDS = rounds(200);
const PLAIN = { font: 'Oberon10.Scn.Fnt', colour: 1, offset: 0 };

function isSame(some, others) {
    return some.length === others.length && some.every((one, at) => one.equals(others[at]));
}

// Two sites meet at random. One reader asks now and then, one listens, and one is told others' edits alone, and makes the own ones itself.
function meet(draw, units) {
    const [text, other] = [new Text(1, 1, { units }), new Text(1, 2, { units })];
    const asks = new Reader(), listens = new Reader();
    let told = [];
    text.insert(0, 'abc');
    asks.does(text.delta()[0].delta);
    asks.isAs(text);
    listens.does([{ insert: units === 'bytes' ? Buffer.from('abc') : 'abc' }]);
    const end = text.subscribe((edit) => told.push(edit));
    for (let turn = 0; turn < 30; turn += 1) {
        told = [];
        if (draw(3) > 0) {
            const origin = draw(2) === 0 ? 'here' : undefined;
            const before = text.fronts();
            if (origin === undefined) edited(draw, text);
            else text.batch(() => { edited(draw, text); edited(draw, text); }, origin);
            const messages = [...text.since(before)];
            assert.equal(told.length, messages.length > 0 ? 1 : 0);
            for (const edit of told) assert.deepEqual([edit.own, edit.origin, edit.messages], [true, origin, messages]);
        } else {
            edited(draw, other);
            const chunks = other.pack(text.fronts());
            const taken = chunks.map((chunk) => text.unpack(chunk).taken);
            assert.equal(told.length, taken.filter((count) => count > 0).length);
            for (const edit of told) assert.deepEqual([edit.own, edit.origin, edit.messages], [false, undefined, []]);
            if (draw(2) === 0) other.merge(text);
        }
        for (const { delta } of told) listens.does(delta);
        listens.isAs(text);
        if (draw(3) === 0) {
            for (const { delta } of text.delta()) asks.does(delta);
            asks.isAs(text);
            assert.deepEqual(text.delta(), []);
        }
    }
    end();
    told = [];
    text.insert(0, 'x');
    assert.equal(told.length, 0);
    [text, other].forEach((one) => one.close());
}

for (const units of ['bytes', 'utf-16']) {
    for (let seed = 1; seed <= ROUNDS; seed += 1) meet(drawn(seed), units);
}

// Own edits and others' are apart, in order, each with its origin.
const text = new Text(1, 1, { units: 'utf-16' }), other = new Text(1, 2, { units: 'utf-16' });
text.insert(0, 'Oberon');
other.merge(text);
assert.deepEqual(text.delta(), [{ delta: [{ insert: 'Oberon' }], own: false, origin: undefined }]);
text.insert(6, '!');
text.delete(0, 1);
text.batch(() => text.insert(0, 'o'), 'keys');
other.insert(3, '\u{1f600}', { colour: 2 });
other.changeLooks(0, 1, { offset: 1 });
text.batch(() => text.merge(other), 'line');
const looked = { font: PLAIN.font, colour: 1, offset: 1 };
assert.deepEqual(text.delta(), [
    { delta: [{ delete: 1 }, { retain: 5 }, { insert: '!' }], own: true, origin: undefined },
    { delta: [{ insert: 'o' }], own: true, origin: 'keys' },
    { delta: [{ retain: 3 }, { insert: '\u{1f600}', looks: { font: PLAIN.font, colour: 2, offset: 0 } }], own: false, origin: 'line' },
]);
assert.deepEqual([`${text}`, other.runs()[0].offset], ['obe\u{1f600}ron!', 1]);
text.restore();
assert.deepEqual(text.delta(), [{ delta: [{ retain: 1 }, { insert: 'O', looks: looked }], own: true, origin: undefined }]);
assert.ok(text.changes().length > 0);

// What a listener edits is told after what it was told; two listeners are told the same.
const seen = /** @type {any[][]} */ ([[], []]);
const ends = seen.map((list) => text.subscribe(({ delta }) => list.push(delta)));
const echo = text.subscribe(({ own, origin }) => { if (own && origin !== 'echo') text.batch(() => text.insert(0, '>'), 'echo'); });
text.delete(0, text.length);
assert.deepEqual([seen[0], `${text}`], [[[{ delete: 10 }], [{ insert: '>' }]], '>']);
assert.deepEqual(seen[0], seen[1]);
echo();
ends.forEach((end) => end());
// What it edits as a batch ends is no part of that.
const heard = [], answered = [], answers = text.subscribe(({ own, origin, messages }) => {
    heard.push([own, origin, messages.length]);
    if (origin === 'asks') answered.push(...text.insert(0, '<'));
});
text.batch(() => text.insert(0, '?'), 'asks');
assert.deepEqual([heard, answered.length], [[[true, 'asks', 1], [true, undefined, 1]], 1]);
answers();

// Calls within a batch hand nothing out; it answers chunks of all that was done, also where it fails.
const told = [], begun = text.fronts();
text.subscribe((edit) => told.push(edit));
other.insert(0, 'others');
const chunks = text.batch(() => {
    assert.deepEqual([text.insert(0, 'a'), text.batch(() => text.insert(0, 'b')), text.paste(0, 'c')], [[], [], []]);
    text.merge(other);
    text.insert(0, 'd');
}, 'outer');
assert.deepEqual(chunks, text.pack(begun));
assert.deepEqual(told.map(({ delta, own, origin, messages }) => [delta.find((step) => 'insert' in step).insert, own, origin, messages.length]),
    [['cba', true, 'outer', 3], ['others', false, 'outer', 0], ['d', true, 'outer', 1]]);
for (const fails of [() => { throw new Error('no'); }, () => text.take(Buffer.from('none')), () => text.delete(9, 1)]) {
    const before = text.fronts();
    assert.throws(() => text.batch(() => { text.batch(() => text.insert(0, 'x')); text.batch(fails); }),
        (why) => isSame(why.messages, text.pack(before)) && why.messages.length === 1);
}
assert.throws(() => text.batch('none'), TypeError);
assert.throws(() => text.subscribe('none'), TypeError);

// A megabyte is some chunks.
const large = new Text(1, 1), reads = new Text(1, 2), data = Buffer.alloc(2 ** 20, 65);
const pasted = large.paste(0, data, { colour: 3 });
assert.deepEqual([pasted.length, pasted.every((chunk) => chunk.length <= 16000)], [86, true]);
pasted.forEach((chunk) => reads.unpack(chunk));
assert.ok(reads.bytes().equals(data));
large.insert(0, Buffer.alloc(2 ** 24 - 2 ** 20 - 4096));
const rest = large.fronts();
assert.throws(() => large.paste(0, Buffer.alloc(5000)), (why) => why.code === 'FILE_SPENT' && isSame(why.messages, large.pack(rest)));

// A chunk of which a part stands is told as far as it stands.
const twice = Text.load(other.store(), { units: 'utf-16' }), third = new Text(1, 3, { units: 'utf-16' }), news = [];
third.merge(other);
twice.insert(0, '1');
third.insert(0, '3');
other.insert(0, '2');
third.merge(other);
twice.subscribe(({ own, delta }) => news.push([own, delta]));
assert.throws(() => twice.unpack(third.pack([[2, twice.front(2) - 1], ...other.fronts()])[0]), { code: 'CONFLICT', done: 1 });
assert.deepEqual(news, [[false, [{ insert: '3' }]]]);

// What a listener throws is thrown, but not at who edits.
if (typeof process !== 'undefined') {
    const thrown = new Promise((done) => process.once('uncaughtException', done));
    twice.subscribe(() => { throw new Error('a listener'); });
    assert.equal(twice.insert(0, 'x').length, 1);
    assert.equal((await thrown).message, 'a listener');
}
console.log('delta: all is so');
