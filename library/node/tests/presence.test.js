// Who is there. In Node, pages and workers.
import { assert, Buffer, vialshoal } from './here.js';
import { drawn } from './random.js';

const { Presence, Text } = vialshoal;

let clock = 0;
const made = (id) => new Presence({ id, now: () => clock, timeout: 30_000 });
const [ann, bob, eve] = ['00000000000000aa', '00000000000000bb', '00000000000000ee'].map(made);

// Each has an id of 64 bits of its own.
const ids = new Set(Array.from({ length: 100 }, () => new Presence().id));
assert.ok(ids.size === 100 && [...ids].every((id) => /^[0-9a-f]{16}$/.test(id)));

const told = [];
const end = bob.subscribe((changed) => told.push(changed));
const first = ann.set({ site: 1, name: 'Ann' });
assert.deepEqual([bob.take(first), bob.take(first), told], [[ann.id], [], [[ann.id]]]);
assert.deepEqual([...bob.states()], [[ann.id, { site: 1, name: 'Ann' }]]);
ann.take(bob.set({ site: 2, name: 'Bob' }));
assert.deepEqual([ann.state, bob.state, ann.states().size, told.length], [{ site: 1, name: 'Ann' }, { site: 2, name: 'Bob' }, 2, 2]);
// Who comes gets all that is known; what is older changes nothing.
assert.deepEqual(eve.take(bob.encode()), [ann.id, bob.id]);
const second = ann.set({ site: 1, name: 'Ann', cursor: 3 });
assert.deepEqual([bob.take(second), bob.take(first), bob.states().get(ann.id).cursor], [[ann.id], [], 3]);
// Who leaves is gone at once, and what was sent before that doesn't bring it back.
assert.deepEqual([eve.take(ann.set(null)), eve.take(second), [...eve.states().keys()]], [[ann.id], [], [bob.id]]);
end();

// Who isn't heard of for long is gone; who is there says so in time.
bob.take(ann.set({ site: 1 }));
clock = 14_999;
assert.deepEqual([ann.tick(), bob.tick()], [undefined, undefined]);
clock = 15_000;
const again = ann.tick();
assert.deepEqual([bob.take(again), ann.tick()], [[ann.id], undefined]);
clock = 44_999;
bob.tick();
assert.ok(bob.states().has(ann.id));
clock = 45_000;
bob.tick();
assert.ok(!bob.states().has(ann.id));
assert.deepEqual([bob.take(again), bob.take(ann.tick())], [[], [ann.id]]);
clock = 200_000;
bob.tick();
bob.tick();
assert.deepEqual([...bob.states().keys()], [bob.id]);
// One who was said to have left says that it is there.
ann.set({ site: 1 });
ann.take(Buffer.from(JSON.stringify([[ann.id, 1000, null]])));
assert.deepEqual(ann.state, { site: 1 });
assert.deepEqual(bob.take(ann.tick()), [ann.id]);

// Cursors are places that stay, which each text finds.
const text = new Text(1, 1, { units: 'utf-16' }), other = new Text(1, 2, { units: 'utf-16' });
text.insert(0, 'Oberon');
other.merge(text);
bob.take(ann.set({ cursor: { anchor: text.anchor(2), head: text.anchor(4, 1) } }));
other.insert(0, '>>');
const { anchor, head } = bob.states().get(ann.id).cursor;
assert.deepEqual([other.position(anchor), other.position(head)], [4, 6]);

// Bytes of anybody's are refused, or are states.
for (const wrong of ['', 'none', '{}', '[1]', '[["aa",1,{}]]', '[["00000000000000aa",-1,{}]]', '[["00000000000000aa",1,7]]',
    '[["00000000000000aa",1]]']) {
    assert.throws(() => bob.take(Buffer.from(wrong)), { name: 'Refused', code: 'MALFORMED' });
}
assert.throws(() => bob.take('none'), TypeError);
assert.throws(() => bob.set('none'), TypeError);
assert.throws(() => new Presence({ id: 'aa' }), TypeError);

// In whatever order, and however often, states come: who got all shows the same.
for (let seed = 1; seed <= 100; seed += 1) {
    const draw = drawn(seed), all = ['aa', 'bb', 'ee'].map((id) => made(`00000000000000${id}`)), sent = [];
    for (let turn = 0; turn < 20; turn += 1) sent.push(all[draw(3)].set(draw(4) === 0 ? null : { turn }));
    for (let turn = 0; turn < 40; turn += 1) all[draw(3)].take(sent[draw(sent.length)]);
    for (const one of all) [...sent].sort(() => draw(3) - 1).forEach((bytes) => one.take(bytes));
    const shown = all.map((one) => [...one.states()].sort());
    assert.deepEqual(shown[1], shown[0]);
    assert.deepEqual(shown[2], shown[0]);
}
console.log('presence: all is so');
