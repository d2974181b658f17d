// What comes too early: in any order all is taken in at last. In Node, pages and workers.
import { assert, Buffer, rounds, vialshoal } from './here.js';
import { drawn, edited } from './random.js';

const { Backlog, Refused, Text } = vialshoal;
const ROUNDS = rounds(60);

function shuffled(draw, list) {
    const found = [...list];
    for (let at = found.length - 1; at > 0; at -= 1) {
        const other = draw(at + 1);
        [found[at], found[other]] = [found[other], found[at]];
    }
    return found;
}

// Many more than 64 operations that wait, of some sites that build on one another, as chunks and messages, some of them twice.
function comes(draw) {
    const sites = [1, 2, 3].map((site) => new Text(1, site));
    const sent = [];
    for (let turn = 0; turn < 150; turn += 1) {
        const text = sites[draw(3)];
        if (draw(4) === 0) text.merge(sites[draw(3)]);
        const before = text.fronts();
        for (let edits = draw(6); edits >= 0; edits -= 1) edited(draw, text);
        if (draw(2) === 0) sent.push(...text.pack(before));
        else sent.push(...text.since(before));
    }
    for (const text of sites) for (const other of sites) text.merge(other);
    const late = new Text(1, 4), backlog = new Backlog(late);
    let taken = 0, most = 0;
    for (const bytes of shuffled(draw, [...sent, ...sent.slice(0, 20)])) {
        const it = backlog.take(bytes);
        assert.deepEqual([it.refused, it.kept, late.waiting], [[], backlog.length, 0]);
        taken += it.taken;
        most = Math.max(most, it.kept);
    }
    assert.deepEqual([backlog.length, taken, `${late}`], [0, [...late.since([])].length, `${sites[0]}`]);
    assert.deepEqual(late.runs(), sites[0].runs());
    return most;
}

let most = 0;
for (let seed = 1; seed <= ROUNDS; seed += 1) most = Math.max(most, comes(drawn(seed)));
assert.ok(most > 64, most);

// Chunks that come backwards, of which a text alone would refuse the 65th operation.
const long = new Text(1, 1), late = new Text(1, 2), backlog = new Backlog(late);
for (let at = 0; at < 3000; at += 1) long.insert(at % 7, Buffer.alloc(40, at));
const chunks = long.pack().reverse();
assert.throws(() => new Text(1, 3).unpack(chunks[0]), { code: 'ROOM_FULL', done: 64 });
assert.deepEqual(chunks.map((chunk) => backlog.take(chunk).taken), [...Array(chunks.length - 1).fill(0), 3000]);
assert.ok(late.bytes().equals(long.bytes()));

// Of a chunk all is taken in that is ready, whatever stands before it.
const [ann, bob, cid] = [1, 2, 3].map((site) => new Text(1, site));
const [first] = ann.insert(0, 'a');
cid.take(first);
bob.insert(0, 'bob');
const [behind] = bob.insert(3, '!');
for (let at = 1; at <= 100; at += 1) cid.insert(at, 'c');
ann.merge(cid);
ann.merge(bob);
const [mixed, ...none] = ann.pack([[1, 1]]), half = new Text(1, 4), halves = new Backlog(half);
assert.deepEqual([none, halves.take(behind).kept], [[], 1]);
assert.deepEqual([halves.take(mixed), `${half}`], [{ taken: 2, kept: 1, refused: [] }, 'bob!']);
assert.deepEqual([halves.take(first), `${half}`], [{ taken: 101, kept: 0, refused: [] }, `${ann}`]);

// What such a chunk brings makes ready what was kept.
const [dan, eve, fay, part] = [5, 6, 7, 8].map((site) => new Text(1, site)), parts = new Backlog(part);
eve.take(dan.insert(0, 'd')[0]);
const [cut] = eve.delete(0, 1), [lost] = fay.insert(0, 'f');
dan.take(lost);
for (let at = dan.find({ site: 7, offset: 0 }).pos, end = at + 100; at < end; at += 1) dan.insert(at, 'x');
assert.equal(parts.take(cut).kept, 1);
assert.deepEqual(parts.take(dan.pack([[7, 1]])[0]), { taken: 2, kept: 1, refused: [] });
assert.deepEqual(parts.take(lost), { taken: 101, kept: 0, refused: [] });

// What is refused is thrown, or told where it was kept before; what is too much isn't kept.
assert.throws(() => backlog.take(Buffer.from('none')), Refused);
assert.throws(() => backlog.take('none'), TypeError);
assert.throws(() => backlog.take(new Text(2, 1).paste(0, 'x')[0]), { code: 'WRONG_TEXT' });
const [here, there] = [new Text(1, 5), new Text(1, 5)];
here.insert(0, 'abc');
there.insert(0, 'xyz');
const early = there.delete(0, 1), unlike = new Text(1, 6), kept = new Backlog(unlike);
assert.deepEqual(kept.take(early[0]).kept, 1);
unlike.merge(here);
here.insert(0, 'd');
const { taken, refused } = kept.take([...here.since([[5, 1]])][0]);
assert.deepEqual([taken, refused.map(({ code }) => code), kept.length], [1, ['CONFLICT'], 0]);
const small = new Backlog(new Text(1, 7), { most: 100 });
small.take([...long.since([[1, 1]])][0]);
assert.throws(() => small.take([...long.since([[1, 2]])][0]), RangeError);
assert.equal(small.length, 1);
console.log('backlog: all is so');
