// Places that stay, copies, versions and what lies between them, and states. In Node, pages and workers.
import { assert, Buffer, rounds, vialshoal } from './here.js';
import { Reader, drawn, edited, range } from './random.js';

const { FrontsDiffer, Refused, Text } = vialshoal;
const ROUNDS = rounds(120);

// Two sites that meet now and then, and the fronts of one of them meanwhile.
function history(draw, units) {
    const text = new Text(1, 1, { units }), other = new Text(1, 2, { units });
    const fronts = [text.fronts()];
    for (let turn = 0; turn < 25; turn += 1) {
        edited(draw, draw(2) === 0 ? text : other);
        if (draw(4) === 0) other.merge(text);
        if (draw(4) === 0) text.merge(other);
        fronts.push(text.fronts());
    }
    return { text, other, fronts };
}

// What lies between two versions makes one of the other, forwards and backwards, and is nothing between a version and itself.
function differs(draw, { text, fronts }) {
    for (let turn = 0; turn < 4; turn += 1) {
        const [from, to] = [fronts[draw(fronts.length)], fronts[draw(fronts.length)]];
        const reader = new Reader().does(text.diff([], from));
        reader.isAs(text.past(from));
        reader.does(text.diff(from, to)).isAs(text.past(to));
        reader.does(text.diff(to)).isAs(text);
        assert.deepEqual(text.diff(from, from), []);
    }
}

// A copy is as the text is, or as it was, and goes on as another site.
function copies(draw, { text, other, fronts }) {
    const at = fronts[draw(fronts.length)];
    const whole = text.copy(7), begin = text.copy(8, { at });
    assert.deepEqual([`${whole}`, whole.runs(), whole.fronts(), whole.site], [`${text}`, text.runs(), text.fronts(), 7]);
    const past = text.past(at);
    assert.deepEqual([`${begin}`, begin.runs(), begin.fronts(), begin.waiting], [`${past}`, past.runs(), at, 0]);
    edited(draw, whole);
    edited(draw, begin);
    for (const one of [whole, begin, other]) text.merge(one);
    for (const one of [whole, begin, other]) one.merge(text);
    assert.deepEqual([whole, begin, other].map(String), Array(3).fill(`${text}`));
}

// A place stays beside its character wherever that goes: marks that are typed beside it are found there.
function stays(draw, units) {
    const text = new Text(1, 1, { units }), other = new Text(1, 2, { units });
    text.insert(0, draw(3) === 0 ? '' : 'abcde\u{1f600}fgh');
    other.merge(text);
    const [pos] = range(draw, text);
    const [left, right] = [text.anchor(pos, -1), text.anchor(pos, 1)];
    assert.deepEqual([text.position(left), text.position(right)], [pos, pos]);
    other.insert(other.position(left), '<');
    assert.deepEqual([other.position(left), other.position(right)], [pos, pos + 1]);
    for (let turn = draw(6); turn > 0; turn -= 1) edited(draw, other);
    text.merge(other);
    for (const anchor of [left, right]) assert.equal(text.position(JSON.parse(JSON.stringify(anchor))), other.position(anchor));
    assert.ok(text.position(left) <= text.position(right));
}

for (const units of ['bytes', 'utf-16']) {
    for (let seed = 1; seed <= ROUNDS; seed += 1) {
        const draw = drawn(seed), it = history(draw, units);
        differs(draw, it);
        copies(draw, it);
        stays(draw, units);
    }
}

const text = new Text(1, 1, { units: 'utf-16' });
assert.deepEqual([text.anchor(0), text.anchor(0, 1)], [{ site: 0, offset: 0, side: -1 }, { site: 0, offset: 0, side: 1 }]);
for (const side of [-1, 1]) assert.throws(() => new Text(1, 1).anchor(1, side), { code: 'OUT_OF_TEXT' });
text.insert(0, 'a\u{1f600}b');
assert.deepEqual([text.anchor(0), text.anchor(4, 1), text.anchor(3), text.anchor(1, 1)],
    [{ site: 0, offset: 0, side: -1 }, { site: 0, offset: 0, side: 1 }, { site: 1, offset: 4, side: -1 }, { site: 1, offset: 1, side: 1 }]);
const [beg, end, before, after] = [text.anchor(0), text.anchor(4, 1), text.anchor(3), text.anchor(1, 1)];
text.insert(0, '<');
text.insert(5, '>');
assert.deepEqual([beg, end, before, after].map((anchor) => text.position(anchor)), [0, 6, 4, 2]);
text.delete(1, 5);
assert.deepEqual([beg, end, before, after].map((anchor) => text.position(anchor)), [0, 2, 1, 1]);
assert.throws(() => text.anchor(9), RangeError);
assert.throws(() => text.anchor(0, 0), TypeError);
assert.throws(() => text.position({ site: 9, offset: 0, side: 1 }), { code: 'NO_NAME' });
for (const site of [1, 0, 65536]) assert.throws(() => text.copy(site), RangeError);
assert.throws(() => text.copy('2'), TypeError);
assert.deepEqual([text.number, text.site, Text.load(text.store({ packed: true })).site, Text.load(text.store()).number], [1, 1, 1, 1]);

// A state has the fronts, and hashes by which copies are found that both went on.
const one = new Text(1, 1), other = new Text(1, 2);
assert.deepEqual([one.state().toString('hex'), other.check(one.state()).size], ['4f5456310001', 0]);
one.insert(0, 'Oberon');
assert.equal(one.state().toString('hex'), '4f5456310001000100000001331a4488901766bb');
for (let turn = 0; turn < 40; turn += 1) one.insert(turn, 'x'.repeat(turn * 7 + 1));
// (as Python's hashlib has it)
assert.equal(one.state().toString('hex'), '4f5456310001000100000029110fed16008d393a');
assert.deepEqual([[...other.check(one.state())], other.check(other.state()).size], [[[1, 41]], 0]);
for (const chunk of one.pack(other.state())) other.unpack(chunk);
assert.deepEqual([one.state().equals(other.state()), [...one.since(other.state())], one.pack(other.state())], [true, [], []]);
const twin = Text.load(one.store());
twin.insert(0, 'here');
assert.throws(() => one.check(twin.state()), { name: 'FrontsDiffer', code: 'BEHIND', site: 1, seq: 42 });
one.insert(0, 'there');
other.merge(one);
for (const call of [() => one.check(twin.state()), () => other.pack(twin.state()), () => other.since(twin.state())]) {
    assert.throws(call, (why) => why instanceof FrontsDiffer && why instanceof Refused && why.code === 'CONFLICT' && why.seq === 42);
}
assert.throws(() => new Text(2, 1).check(one.state()), { code: 'WRONG_TEXT' });
for (const wrong of [Buffer.from('none'), one.state().subarray(0, -1), Buffer.from('4f54563100010001000000000102030405060708', 'hex')]) {
    assert.throws(() => one.check(wrong), TypeError);
}
assert.throws(() => one.check('none'), TypeError);
console.log('versions: all is so');
