// Undo and redo: against plain lists of characters, of which each is one's own or another's. In Node, pages and workers.
import { assert, rounds, vialshoal } from './here.js';
import { drawn, range } from './random.js';

const { Text, UndoManager } = vialshoal;
const ROUNDS = rounds(150);
const UTF_16 = { units: 'utf-16' };

let clock = 0;
const later = (time) => { clock += time; };
const managed = (text, options = {}) => new UndoManager(text, { now: () => clock, ...options });

// What is typed at once is taken back at once; what comes later, or at another place in time, alone.
const text = new Text(1, 1, UTF_16), undo = managed(text);
assert.deepEqual([undo.canUndo, undo.undo(), undo.redo()], [false, undefined, undefined]);
for (const letter of 'Oberon') text.insert(text.length, letter);
later(500);
text.insert(6, '!');
undo.stopCapturing();
text.delete(0, 3);
assert.deepEqual([undo.undo().beg, `${text}`], [0, 'Oberon!']);
assert.deepEqual([undo.undo().chunks.length, `${text}`], [1, 'Oberon']);
assert.deepEqual([{ ...undo.undo(), chunks: [] }, `${text}`], [{ chunks: [], selection: undefined, beg: 0, end: 0 }, '']);
assert.deepEqual([undo.canUndo, undo.canRedo], [false, true]);
assert.deepEqual([undo.redo().end, undo.redo().end, `${text}`], [6, 7, 'Oberon!']);
assert.deepEqual([{ ...undo.redo(), chunks: [] }, `${text}`], [{ chunks: [], selection: undefined, beg: 0, end: 0 }, 'ron!']);
undo.undo();
text.insert(0, '>');
assert.deepEqual([undo.canRedo, undo.redo()], [false, undefined]);
undo.clear();
assert.equal(undo.undo(), undefined);

// What was typed and deleted within one edit doesn't come back, and what was deleted and shown again doesn't go.
text.insert(0, 'xyz');
text.delete(1, 4);
text.delete(1, 2);
text.restore();
assert.equal(`${text}`, 'xOberon!');
undo.undo();
assert.equal(`${text}`, '>Oberon!');
undo.redo();
assert.equal(`${text}`, 'xOberon!');
later(500);
text.insert(0, 'gone');
text.delete(0, 4);
undo.undo();
assert.equal(`${text}`, '>Oberon!');
undo.clear();

// Others' text stays, and what others did with one's own isn't undone.
const other = new Text(1, 2, UTF_16);
const meet = () => { other.merge(text); text.merge(other); };
text.delete(0, text.length);
later(500);
text.insert(0, 'abc');
meet();
other.insert(1, 'OTHER');
other.delete(6, 7);
meet();
assert.equal(`${text}`, 'aOTHERc');
undo.undo();
assert.equal(`${text}`, 'OTHER');
undo.redo();
assert.equal(`${text}`, 'aOTHERc');
// (what no longer does anything is passed over)
undo.clear();
text.insert(0, '1');
later(500);
text.insert(0, '2');
meet();
other.delete(0, 1);
meet();
undo.undo();
assert.deepEqual([`${text}`, undo.canUndo], ['aOTHERc', false]);
undo.redo();
assert.equal(`${text}`, '1aOTHERc');
undo.close();

// Each has the edits of its origins; the selection of before comes with what is taken back.
const shared = new Text(1, 3, UTF_16);
let selected = 'at first';
const left = managed(shared, { origins: ['left'] });
const right = managed(shared, { origins: ['right'], captureTime: 0, selection: () => selected });
const all = managed(shared);
shared.batch(() => shared.insert(0, 'LLL'), 'left');
shared.batch(() => shared.insert(1, 'R'), 'right');
selected = 'then';
shared.batch(() => { shared.delete(0, 1); shared.insert(0, 'rr'); }, 'right');
shared.insert(0, '-');
assert.equal(`${shared}`, '-rrRLL');
selected = 'now';
assert.deepEqual([right.undo().selection, `${shared}`], ['then', '-LRLL']);
assert.deepEqual([right.undo().selection, `${shared}`], ['at first', '-LLL']);
assert.deepEqual([right.redo().selection, `${shared}`, right.redo().selection], ['now', '-LRLL', 'now']);
assert.deepEqual([left.canUndo, left.undo() !== undefined, `${shared}`], [true, true, '-rrR']);
assert.deepEqual([all.undo() !== undefined, `${shared}`, all.canUndo], [true, '', false]);
assert.throws(() => shared.batch(() => right.undo()), TypeError);
const told = [];
right.subscribe(({ canUndo, canRedo }) => told.push([canUndo, canRedo]));
right.undo();
assert.deepEqual(told, [[true, true]]);

// More ranges than one message speaks of.
const scattered = new Text(1, 4, UTF_16), much = managed(scattered);
scattered.insert(0, 'ab'.repeat(3000));
later(500);
scattered.batch(() => { for (let at = 2999; at >= 0; at -= 1) scattered.delete(2 * at, 2 * at + 1); });
assert.equal(`${scattered}`, 'b'.repeat(3000));
much.undo();
assert.equal(`${scattered}`, 'ab'.repeat(3000));
much.redo();
assert.equal(`${scattered}`, 'b'.repeat(3000));

// At random: each character is known by a number, is shown or not, and each edit of one's own hid and showed some.
function model(draw) {
    const [here, there] = [new Text(1, 1), new Text(1, 2)];
    const back = managed(here, { captureTime: 0 });
    const namesOf = (it) => new Set(it.names(0, it.length).map(({ site, offset }) => `${site}.${offset}`));
    /** @type {any[][]} */
    const [done, undone] = [[], []];
    const differing = (before, after) => ({
        came: [...after].filter((name) => !before.has(name)), went: [...before].filter((name) => !after.has(name)),
    });
    const edit = (it) => {
        const [beg, end] = range(draw, it);
        if (draw(3) === 0) it.delete(beg, end);
        else it.insert(beg, 'abcdefgh'.slice(0, 1 + draw(8)));
    };
    for (let turn = 0; turn < 25; turn += 1) {
        const before = namesOf(here), what = draw(5);
        if (what < 2) {
            later(1);
            const front = here.front(1);
            edit(here);
            if (here.front(1) > front) {
                done.push(differing(before, namesOf(here)));
                undone.length = 0;
            }
        } else if (what === 2) {
            there.merge(here);
            edit(there);
            here.merge(there);
        } else {
            const [from, to] = what === 3 ? [done, undone] : [undone, done];
            let wanted = before;
            while (from.length > 0) {
                const { came, went } = from.pop();
                wanted = new Set(before);
                came.forEach((name) => wanted.delete(name));
                went.forEach((name) => wanted.add(name));
                const changed = differing(before, wanted);
                if (changed.came.length + changed.went.length === 0) continue;
                to.push(changed);
                break;
            }
            const did = what === 3 ? back.undo() : back.redo();
            assert.deepEqual([...namesOf(here)].sort(), [...wanted].sort());
            assert.equal(did !== undefined, [...wanted].sort().join() !== [...before].sort().join());
            if (did !== undefined) {
                there.merge(here);
                assert.equal(`${there}`, `${here}`);
            }
        }
    }
}

for (let seed = 1; seed <= ROUNDS; seed += 1) model(drawn(seed));
console.log('undo: all is so');
