// What the addon, or WebAssembly in its place, adds to the library: numbers in and out, buffers, errors. In Node, pages and workers.
import { assert, Buffer, vialshoal } from './here.js';

const { Past, Refused, Shown, Text } = vialshoal;

// A text's refusal has its number, a code and words; misuse is an error of the language's own, with the same.
function refuses(number, call) {
    assert.throws(call, (error) => {
        const kinds = number < 101 ? [Refused] : [RangeError, TypeError];
        return error.number === number && kinds.some((kind) => error instanceof kind) && /^[A-Z_]+$/.test(error.code) &&
            /^[a-z0-9].* .*[a-z]/.test(error.message);
    });
}

const a = new Text(1, 1);
const b = new Text(1, 2);
const sent = a.insert(0, 'Oberon');
assert.strictEqual(sent.length, 1);
assert.strictEqual(sent[0].toString('hex'),
    '4f540101000100010000000100000000000000010000000000000000000' + '0104f6265726f6e31302e53636e2e466e74010000064f6265726f6e');
assert.deepStrictEqual(b.take(sent[0]), { kind: 'taken', drained: 0, dropped: 0, stopped: false });
assert.strictEqual(b.take(sent[0]).kind, 'repeat');
assert.deepStrictEqual(b.changes(), [{ kind: 'insert', beg: 0, end: 6 }]);
assert.deepStrictEqual(b.changes(), []);
for (const message of b.delete(0, 2)) a.take(message);
assert.strictEqual(`${a}`, 'eron');
refuses(109, () => a.replacement());
const followed = new Text(1, 3);
followed.merge(a);
followed.endNoting();
assert.deepStrictEqual([followed.changes(), followed.replacement()], [[], { deleted: 0, inserted: 4 }]);
followed.delete(0, 1);
assert.deepStrictEqual([followed.changes(), followed.replacement()], [[], { deleted: 4, inserted: 3 }]);
followed.endNoting(9);
assert.deepStrictEqual(followed.replacement(), { deleted: 9, inserted: 3 });
refuses(103, () => followed.endNoting(-1));
assert.throws(() => new Text(1, 3, { units: 'utf-16' }).endNoting(), TypeError);
followed.close();
refuses(101, () => followed.endNoting());
refuses(101, () => followed.replacement());
assert.strictEqual(a.length, 4);
assert.deepStrictEqual(a.names(0, 1), [{ site: 1, offset: 2 }]);
assert.deepStrictEqual(a.find({ site: 1, offset: 3 }), { pos: 2, isShown: true });
assert.deepStrictEqual(a.find({ site: 1, offset: 0 }), { pos: 0, isShown: false });
a.changeLooks(1, 2, { font: 'Syntax12.Scn.Fnt', offset: -3 });
assert.deepStrictEqual(a.runs().map(({ beg, end, font, offset }) => [beg, end, font, offset]),
    [[0, 1, 'Oberon10.Scn.Fnt', 0], [1, 2, 'Syntax12.Scn.Fnt', -3], [2, 4, 'Oberon10.Scn.Fnt', 0]]);
assert.strictEqual(b.merge(a), 1);
assert.strictEqual(b.merge(b), 0);
assert.strictEqual(b.restore().length, 1);
assert.strictEqual(b.recall(6).length, 1);
assert.strictEqual(b.bytes(1, 3).toString(), 'be');
assert.strictEqual(`${b}`, 'OberonOb');
assert.strictEqual(b.front(2), 3);
assert.deepStrictEqual([b.waiting, b.forget(), b.settle()], [0, 0, { drained: 0, dropped: 0, stopped: false }]);
assert.deepStrictEqual([...b.fronts()], [[1, 2], [2, 3]]);
const c = new Text(2, 1);
c.insert(0, 'Oberon');
const some = [{ site: 1, offset: 4, length: 2 }, { site: 1, offset: 0, length: 1 }];
assert.strictEqual(c.deleteNames(some).length, 1);
assert.strictEqual(`${c}`, 'ber');
assert.deepStrictEqual([c.deleteNames(some), c.deleteNames([])], [[], []]);
assert.strictEqual(c.restoreNames([{ site: 1, offset: 0, length: 6 }]).length, 1);
assert.strictEqual(`${c}`, 'Oberon');
refuses(106, () => c.deleteNames([{ site: 1, offset: 6, length: 1 }]));
refuses(105, () => c.restoreNames([{ site: 1, offset: 0, length: 0 }]));

// A text is kept in either form, and its site goes on from there.
const files = [b.store(), b.store({ packed: true })];
assert.deepStrictEqual([b.store({}), b.store({ packed: false })], [files[0], files[0]]);
assert.strictEqual(files[1].subarray(0, 8).toString('latin1'), 'OTP1\0\x01\0\x02');
assert.ok(2 * files[1].length < files[0].length);
const wentOn = files.map((file) => {
    const again = Text.load(file);
    assert.deepStrictEqual([`${again}`, again.names(0, 8), [...again.fronts()]], ['OberonOb', b.names(0, 8), [...b.fronts()]]);
    assert.deepStrictEqual([again.store(), again.store({ packed: true })], files);
    return again.insert(0, '!');
});
assert.deepStrictEqual(wentOn[0], wentOn[1]);
const met = new Text(1, 3);
met.merge(b);
assert.deepStrictEqual(wentOn[1].map((message) => met.take(message).kind), ['taken']);
refuses(13, () => Text.load(files[1].subarray(0, -1)));
refuses(13, () => Text.load(Buffer.concat([files[1], Buffer.from([0x0e])])));
const kept = new Text(4, 1);
for (const letter of 'Oberon') kept.insert(kept.length, letter);
assert.strictEqual(kept.store({ packed: true }).toString('latin1'), 'OTP1\0\x04\0\x01\x01\x01\0Oberon');
kept.close();
refuses(101, () => kept.store({ packed: true }));

// What was taken in past fronts, and the text as it was up to them.
const d = new Text(2, 2);
assert.deepStrictEqual([...c.since(d.fronts())].map((message) => d.take(message).kind), ['taken', 'taken', 'taken']);
assert.deepStrictEqual([...c.since(d.fronts())], []);
const past = d.past(new Map([[1, 2]]));
assert.ok(past instanceof Past && past instanceof Shown && d instanceof Shown && !(past instanceof Text));
const messages = d.since([[1, 2]]);
const [last] = c.insert(0, '!');
d.take(last);
assert.deepStrictEqual([...messages].length, 2);
d.close();
assert.deepStrictEqual([`${past}`, past.length, past.bytes(0, 2).toString(), past.slice(1)], ['ber', 3, 'be', 'er']);
assert.deepStrictEqual(past.names(0, 1), [{ site: 1, offset: 1 }]);
assert.deepStrictEqual(past.find({ site: 1, offset: 0 }), { pos: 0, isShown: false });
assert.deepStrictEqual(past.runs(), [{ beg: 0, end: 3, font: 'Oberon10.Scn.Fnt', colour: 1, offset: 0 }]);
refuses(106, () => past.find({ site: 1, offset: 6 }));
refuses(103, () => past.bytes(0, 4));
assert.throws(() => c.merge(past), TypeError);
assert.throws(() => new Past(past, []), TypeError);
assert.throws(() => new Shown(), TypeError);
for (const wrong of [[[0, 1]], [[65536, 1]], [[1, -1]], [[1, 2 ** 32]]]) {
    refuses(105, () => c.since(wrong));
    refuses(105, () => c.past(wrong));
}
past.close();
refuses(101, () => past.length);
refuses(101, () => d.since([]));
refuses(101, () => d.past([]));

// The same in chunks.
const g = new Text(1, 2), h = new Text(1, 1);
for (const letters of ['a', 'b', 'cde']) g.insert(g.length, letters);
const [all] = g.pack(), [later] = g.pack([[2, 1]]);
assert.strictEqual(all.toString('latin1'), 'OTC1\0\x01\x0f\x02\x01\x01\0ab\x06\x01cde');
assert.strictEqual(later.toString('latin1'), 'OTC1\0\x01\x0f\x02\x02\x02\x01\x05\x02\0b\x06\x01cde');
assert.deepStrictEqual([g.pack(g.fronts()), new Text(1, 1).pack()], [[], []]);
assert.deepStrictEqual(h.unpack(later), { taken: 0, known: 0, waiting: 2, stopped: false });
assert.deepStrictEqual(h.unpack(new Uint8Array(all)), { taken: 3, known: 2, waiting: 0, stopped: false });
assert.deepStrictEqual(h.unpack(later), { taken: 0, known: 2, waiting: 0, stopped: false });
assert.deepStrictEqual([`${h}`, h.pack(new Map()).map(String)], ['abcde', [String(all)]]);
for (const end of [0, 5, 11, 14]) refuses(1, () => h.unpack(all.subarray(0, end)));
refuses(1, () => h.unpack(Buffer.concat([all, Buffer.from([15])])));
refuses(2, () => new Text(2, 1).unpack(all));
const twice = Text.load(g.store());
g.insert(5, 'f');
twice.insert(5, 'g');
assert.throws(() => twice.unpack(g.pack()[0]), (error) => error instanceof Refused && error.number === 3 && error.done === 3);
assert.throws(() => twice.unpack(g.pack([[2, 3]])[0]), (error) => error.number === 3 && error.done === 0);
assert.strictEqual(`${twice}`, 'abcdeg');
for (let at = 0; at < 10; at++) g.insert(6 + at * 2048, Buffer.alloc(4096, at));
const many = g.pack([[2, 4]]);
assert.deepStrictEqual([many.length, many.every((chunk) => chunk.length <= 16000)], [4, true]);
const whole = new Text(1, 3);
assert.strictEqual([...g.pack([[2, 0]])].reduce((sum, chunk) => sum + whole.unpack(chunk).taken, 0), 14);
assert.ok(whole.bytes().equals(g.bytes()));
for (const wrong of [[[0, 1]], [[65536, 1]], [[1, -1]], [[1, 2 ** 32]]]) refuses(105, () => g.pack(wrong));
assert.throws(() => g.unpack('none'), TypeError);
g.close();
refuses(101, () => g.pack());
refuses(101, () => g.unpack(all));

// Names in stretches are the names one by one, however many.
const i = new Text(1, 1), j = new Text(1, 2);
i.insert(0, Buffer.alloc(20000, 65));
j.merge(i);
for (let at = 0; at < 9000; at += 1) (at % 2 === 0 ? j : i).insert(at % 3 === 0 ? 5 : at * 2, 'x');
i.merge(j);
i.delete(4096, 4100);
for (const [beg, end] of [[0, i.length], [3, 3], [5, 6], [4090, 12300], [0, 4096], [1, 8193]]) {
    const named = i.nameRanges(beg, end).flatMap(({ site, offset, length }) => Array.from({ length }, (_, at) => ({ site, offset: offset + at })));
    assert.deepEqual(named, i.names(beg, end));
}
assert.deepEqual(i.past([[1, 1]]).nameRanges(0, 9), [{ site: 1, offset: 0, length: 9 }]);
assert.deepEqual([i.nameRanges(0, 0), new Text(1, 1).nameRanges(0, 0)], [[], []]);
refuses(103, () => i.nameRanges(0, i.length + 1));
refuses(103, () => i.nameRanges(2, 1));
i.close();
refuses(101, () => i.nameRanges(0, 0));

// Looks from the start, and a text file.
const e = new Text(3, 1), f = new Text(3, 1);
assert.deepStrictEqual(e.insert(0, 'Oberon', {}), f.insert(0, 'Oberon'));
assert.strictEqual(e.insert(2, 'xy', { font: 'a', colour: 7, offset: -3 }).length, 1);
for (const run of e.runs().slice(1, 2)) f.insert(run.beg, e.bytes(run.beg, run.end), run);
assert.deepStrictEqual([`${f}`, f.runs()], ['Obxyeron', e.runs()]);
assert.strictEqual(e.save().toString('latin1'), ['OTF1\0\0\0\x03', '\x10Oberon10.Scn.Fnt\x01\0\0\0\0\x02', '\x01a\x07\xfd\0\0\0\x02',
    '\x10Oberon10.Scn.Fnt\x01\0\0\0\0\x04', '\0\0\0\x08Obxyeron'].join(''));
refuses(105, () => e.insert(0, 'x', { font: '1' }));
refuses(105, () => e.insert(0, 'x', { colour: 16 }));
refuses(105, () => e.insert(0, 'x', { offset: -129 }));
refuses(103, () => e.insert(9, 'x', {}));
e.insert(0, Buffer.alloc(1 << 20));
refuses(13, () => e.save());
assert.throws(() => e.save(), ({ code, message }) => code === 'BAD_FILE' && message.includes('a text file would pass 2^20 bytes'));

refuses(13, () => Text.load(Buffer.from('none')));
refuses(103, () => a.insert(5, 'x'));
refuses(103, () => a.insert(-1, 'x'));
refuses(103, () => a.bytes(2, 9));
refuses(105, () => a.changeLooks(0, 1, {}));
refuses(105, () => a.changeLooks(0, 1, { colour: 16 }));
refuses(106, () => a.find({ site: 7, offset: 0 }));
refuses(105, () => new Text(0, 1));
refuses(1, () => a.take(Buffer.from('none')));
assert.throws(() => a.insert(0, 7), TypeError);
a.close();
refuses(101, () => a.length);

// What it is called with is looked at first.
const untyped = new Text(1, 1);
for (const call of [() => new Text('1', 1), () => new Text(1, 1, { units: 'lines' }), () => Text.load('none'), () => untyped.insert('0', 'x'),
    () => untyped.insert(0, null), () => untyped.insert(0, 'x', null), () => untyped.insert(0, 'x', { font: 1 }), () => untyped.delete(0),
    () => untyped.changeLooks(0, 0, undefined), () => untyped.take([1]), () => untyped.merge({}), () => untyped.pack(7),
    () => untyped.deleteNames(7), () => untyped.deleteNames([{}]), () => untyped.past(null)]) {
    assert.throws(call, (error) => error instanceof TypeError && /(wanted|are|is a)/.test(error.message));
}
assert.throws(() => untyped.take(Buffer.from('none')), { name: 'Refused', code: 'MALFORMED', message: 'the bytes are no message, or no chunk' });
assert.throws(() => untyped.delete(0, 1), { name: 'RangeError', code: 'OUT_OF_TEXT' });
untyped.close();
assert.throws(() => untyped.length, { name: 'TypeError', code: 'NOT_OPEN', message: 'the text is closed' });
console.log('text: all is so');
