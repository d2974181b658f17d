// Notes that are kept in files: against notes in memory, cut off at each byte, changed at each byte, on full disks, with bytes of anybody's, by
// killed programs. In Node alone.
import { spawn, spawnSync } from 'node:child_process';
import { createHmac } from 'node:crypto';
import fs from 'node:fs';

import { INDEX, failing, failingAtRandom, fresh, fullAt, patched, put, sizeOf, untilKilled } from './files.js';
import { assert, Buffer, part, vialshoal } from './here.js';
import { drawn } from './random.js';

const { Damaged, Note, Text } = vialshoal;
const { calls } = await part('calls.js');
const { crc32 } = await part('crc32.js');

const [KEY, ANN, BOB, RANK, BASE_KEY] = ['k', 'A', 'B', 'r', 'b'].map((letter) => Buffer.from(letter.repeat(32)));
const ZEROS = Buffer.alloc(32);
// A note that Ann founded as site 1.
const FOUNDING = { key: KEY, founder: ANN, number: 1 };
const HEAD = 40;

// What is copied into a note: a text of site 9, and the hash of its last message.
function copied(words) {
    const text = new Text(1, 9);
    text.insert(0, words);
    const root = [...text.since([])].reduce((before, message) => createHmac('sha256', BASE_KEY).update(before).update(message).digest(), ZEROS);
    return { base: text.pack(), baseKey: BASE_KEY, root };
}

function within(at, use, options = {}) {
    const note = Note.open(at, { site: 1, ...FOUNDING, ...options });
    try {
        return use(note);
    } finally {
        note.close();
    }
}

const state = (note) => [1, 2].map((number) => {
    const text = note.text(number);
    return [text.bytes().toString('hex'), text.runs(), [...text.fronts()], text.nameRanges(0, text.length)];
});
function give(entries, note) {
    entries.forEach((entry) => note.add(entry));
    note.update();
}

// Bytes of a number, the highest first.
function number(value, length) {
    const data = Buffer.alloc(length);
    data.writeUIntBE(value, 0, length);
    return data;
}
function batch(data) {
    const length = number(data.length, 4);
    return Buffer.concat([length, number(crc32(Buffer.concat([length, data])), 4), data]);
}
// A batch of one record.
function record(...parts) {
    const said = Buffer.concat(parts);
    return batch(Buffer.concat([number(said.length, 2), said]));
}
const claimOf = (author, site, rank) => record(number(1, 1), author, number(site, 2), rank);
const entryOf = ({ author, before, first, count, site, text }, body) =>
    record(number(2, 1), author, before, number(first, 4), number(count, 2), number(site, 2), number(text, 2), body);

// A file in which Ann, who took Bob's claim in, said some words, one after the other; its bytes, and where each batch ends.
function typed(...words) {
    const at = fresh(), ends = [HEAD];
    within(at, (note) => {
        note.claim(BOB, 2, RANK);
        note.update();
        ends.push(sizeOf(at));
        for (const word of words) {
            note.text().insert(note.text().length, word);
            assert.equal(note.say(ANN).length, 1);
            ends.push(sizeOf(at));
        }
    });
    return { at, ends, whole: fs.readFileSync(at) };
}

// What Ann said in a note that is open in no file.
function saidOf(...words) {
    const note = new Note(1, FOUNDING);
    return words.flatMap((word) => {
        note.text().insert(note.text().length, word);
        return note.say(ANN);
    });
}

// -- what is kept

// What was made with a base; and the bytes that the Python package's tests have.
const VECTOR = Buffer.from('4f544e31d668fc20459b5c632ed9fc91af9d8fc7e27a26e56b332212c91fc5f7aed36ebfee2dfe87' +
    `0000004554ff56f6004301${'42'.repeat(32)}0002${'72'.repeat(32)}` +
    `000000651b1d4215006302${'41'.repeat(32)}${'00'.repeat(32)}00000001000100010001` +
    '00004f54433100010f0101020005090406044f6265726f6e', 'hex');
const PYTHON = Buffer.from('4f544e3125730964f06acb1b169809682855091a87a061889002876b2a5e3245363f41148a4a203d' +
    `0000004554ff56f6004301${'42'.repeat(32)}0002${'72'.repeat(32)}` +
    `0000005e11d11cc9005c02${'41'.repeat(32)}${'00'.repeat(32)}00000001000100010001` +
    '00004f54433100010f0101010006006869', 'hex');

function vector() {
    const founding = copied('base '), at = fresh();
    assert.deepEqual(founding.base.map((chunk) => chunk.toString('hex')), ['4f54433100010f0901010006036261736520']);
    const said = within(at, (note) => {
        note.claim(BOB, 2, RANK);
        note.update();
        note.text().insert(5, 'Oberon');
        return note.say(ANN);
    }, founding);
    assert.equal(fs.readFileSync(at).toString('hex'), VECTOR.toString('hex'));
    within(put(VECTOR), (note) => assert.deepEqual([`${note.text()}`, note.kept(), note.say(ANN)], ['base Oberon', said, []]), founding);
    assert.equal(fs.readFileSync(typed('hi').at).toString('hex'), PYTHON.toString('hex'));
    within(put(PYTHON), (note) => assert.deepEqual([`${note.text()}`, note.kept()], ['hi', saidOf('hi')]));
}

// A note in a file, and one in memory that does the same.
function asInMemory(seed) {
    const draw = drawn(seed), at = fresh(), twin = new Note(1, FOUNDING), bob = new Note(2, FOUNDING), came = /** @type {any[]} */ ([]);
    let ann = Note.open(at, { site: 1, ...FOUNDING });
    const typing = (notes) => {
        const number = 1 + draw(2), beg = draw(notes[0].text(number).length + 1), word = ['a', 'bc', '\u20ac'][draw(3)];
        for (const note of notes) {
            const text = note.text(number), end = Math.min(beg + draw(2), text.length);
            if (draw(4) === 0 && notes.length === 1) text.delete(beg, end);
            else text.insert(beg, word);
        }
    };
    for (const note of [ann, twin, bob]) note.claim(BOB, 2, RANK);
    for (const note of [ann, twin, bob]) note.update();
    for (let step = 0; step < 25; step += 1) {
        const what = draw(7);
        if (what < 3) {
            typing([ann, twin]);
        } else if (what === 3) {
            const said = ann.say(ANN);
            assert.deepEqual(said, twin.say(ANN));
            came.push(...said);
            give(said, bob);
        } else if (what === 4) {
            typing([bob]);
            const said = bob.say(BOB), again = came.filter(() => draw(2) === 0);
            [ann, twin].forEach((note) => give([...again, ...said, ...again], note));
            came.push(...said);
        } else {
            // What wasn't said isn't there again.
            ann.close();
            twin.update();
            ann = Note.open(at, { site: 1, ...FOUNDING });
        }
        assert.deepEqual(state(ann), state(twin));
        assert.deepEqual(ann.kept(), came);
    }
    [ann, twin, bob].forEach((note) => note.close());
}

function begun() {
    const at = fresh();
    within(at, (note) => assert.deepEqual([note.site, note.kept(), `${note.text()}`], [1, [], '']));
    const head = fs.readFileSync(at);
    assert.equal(head.length, HEAD);
    // A new one that was cut off is new.
    for (let end = 0; end < HEAD; end += 1) {
        const cut = put(head.subarray(0, end));
        within(cut, (note) => assert.deepEqual(note.kept(), []));
        assert.ok(fs.readFileSync(cut).equals(head));
    }
    for (const cut of ['x', 'OTN2', Buffer.concat([head.subarray(0, 30), Buffer.from('x')]), 'x'.repeat(60), Buffer.alloc(60)]) {
        const other = put(cut);
        assert.throws(() => Note.open(other, { site: 1, ...FOUNDING }), Damaged);
        assert.ok(fs.readFileSync(other).equals(Buffer.from(cut)));
    }
    // What is no note begins no file.
    const none = fresh();
    for (const wrong of [{ site: 0 }, { number: 65536 }, { key: KEY.subarray(1) }, { base: [Buffer.from('none')] }, { founder: 'x' }]) {
        assert.throws(() => Note.open(none, { site: 1, ...FOUNDING, ...wrong }));
    }
    assert.throws(() => Note.open(5, { site: 1, ...FOUNDING }), TypeError);
    assert.ok(!fs.existsSync(none));
}

function ofAnother() {
    const { at, whole } = typed('one');
    const others = [{ key: ANN }, { founder: BOB }, { number: 2 }, copied('x'), { baseKey: BASE_KEY }];
    for (const other of others) assert.throws(() => within(at, () => undefined, other), { name: 'RangeError', message: /is of another note$/ });
    assert.throws(() => within(put(VECTOR), () => undefined, copied('other')), RangeError);
    assert.ok(fs.readFileSync(at).equals(whole));
    // (whoever reads it may be any site)
    within(at, (note) => assert.equal(`${note.text()}`, 'one'), { site: 3 });
}

// What came again, or was said here, isn't written again, nor made again.
function onlyOnce() {
    const { at, whole } = typed('one', ' two'), said = within(at, (note) => note.kept());
    const isAsBefore = () => assert.ok(fs.readFileSync(at).equals(whole));
    for (let times = 0; times < 2; times += 1) {
        within(at, (note) => {
            note.claim(BOB, 2, RANK);
            give([...said, ...said], note);
            assert.deepEqual([note.say(ANN), note.kept(), `${note.text()}`], [[], said, 'one two']);
        });
        isAsBefore();
    }
    // What wasn't updated yet, or said, isn't kept.
    const bob = new Note(2, FOUNDING);
    bob.claim(BOB, 2, RANK);
    bob.update();
    bob.text().insert(0, 'Bob ');
    const [its] = bob.say(BOB);
    within(at, (note) => {
        note.add(its);
        note.text().insert(0, 'x');
        isAsBefore();
    });
    isAsBefore();
    within(at, (note) => {
        // (bytes that a caller goes on to use are another's by then)
        const body = Buffer.from(its.body);
        note.add({ head: its.head, body });
        body.fill(0);
        give([its], note);
        assert.equal(sizeOf(at), whole.length + entryOf(its.head, its.body).length);
        assert.deepEqual(note.kept(), [...said, its]);
    });
    // Own edits are kept as they are said, with what came before.
    const another = fresh();
    within(another, (note) => {
        note.claim(BOB, 2, RANK);
        note.text().insert(0, 'one');
        assert.deepEqual(note.say(ANN), [said[0]]);
    });
    const both = Buffer.concat([claimOf(BOB, 2, RANK), entryOf(said[0].head, said[0].body)].map((one) => one.subarray(8)));
    assert.ok(fs.readFileSync(another).equals(Buffer.concat([whole.subarray(0, HEAD), batch(both)])));
    // A copy may have said the same.
    const copy = fresh();
    within(copy, (note) => {
        note.text().insert(0, 'one');
        note.add(said[0]);
        assert.deepEqual([note.say(ANN), note.kept()], [[said[0]], [said[0]]]);
    });
}

function inNoFile() {
    const note = new Note(1, FOUNDING);
    assert.throws(() => note.kept(), TypeError);
    note.close();
    const open = Note.open(fresh(), { site: 1, ...FOUNDING });
    open.text().insert(0, 'x');
    open.claim(BOB, 2, RANK);
    open.close();
    open.close();
    const [entry] = saidOf('x');
    for (const one of [note, open]) {
        const made = [() => one.claim(BOB, 2, RANK), () => one.add(entry), () => one.update(), () => one.say(ANN), () => one.kept()];
        for (const call of made) assert.throws(call, { code: 'NOT_OPEN' });
    }
}

// A body that no entry has, since it is too long, isn't kept, nor taken in.
function tooLong() {
    const text = new Text(1, 1);
    for (let times = 0; times < 2000; times += 1) text.insert(0, 'x');
    const builds = (index) => Buffer.concat([number(index, 2), RANK]);
    const bodyOf = (count) => Buffer.concat([number(count, 2), ...Array.from({ length: count }, (_, at) => builds(at)), text.pack()[0]]);
    const head = { author: ANN, before: ZEROS, first: 1, count: 2000, site: 1, text: 1 };
    const long = { head, body: bodyOf(2000) }, at = fresh();
    assert.ok(text.pack().length === 1 && long.body.length > 65_535);
    new Note(1, FOUNDING).add(long);
    within(at, (note) => {
        assert.throws(() => note.add(long), { name: 'Refused', number: 1 });
        give([{ head, body: bodyOf(1500) }], note);
        assert.equal(note.kept().length, 1);
    });
    within(at, (note) => assert.equal(note.kept().length, 1));
}

// -- bytes that something else has changed

// Whatever is cut off, what was kept before that is there, and the next one takes the place of the rest.
function cutOff() {
    const { ends, whole } = typed('one', ' two', ' three'), said = saidOf('one', ' two', ' three');
    for (let end = HEAD; end <= whole.length; end += 1) {
        const at = put(whole.subarray(0, end)), had = ends.filter((one) => one <= end).length - 2;
        const next = within(at, (note) => {
            assert.deepEqual(note.kept(), said.slice(0, Math.max(had, 0)));
            assert.equal(`${note.text()}`, ['one', ' two', ' three'].slice(0, Math.max(had, 0)).join(''));
            note.text().insert(0, 'new ');
            return note.say(ANN);
        });
        assert.ok(fs.readFileSync(at).equals(Buffer.concat([whole.subarray(0, ends[had + 1]), entryOf(next[0].head, next[0].body)])));
        fs.unlinkSync(at);
    }
}

// Whichever byte is another, the file is damaged, or the last record is torn.
function changed() {
    const { ends, whole } = typed('one', ' two'), [first] = saidOf('one');
    for (let byte = 0; byte < whole.length; byte += 1) {
        for (const bits of [1, 128, 255]) {
            const other = Buffer.from(whole);
            other[byte] ^= bits;
            const at = put(other);
            try {
                within(at, (note) => assert.deepEqual([`${note.text()}`, note.kept()], ['one', [first]]));
                assert.ok(byte >= ends[2]);
            } catch (why) {
                if (!(why instanceof Damaged)) throw why;
                // (a length that says less)
                assert.ok(byte < ends[2] + 4);
            }
            assert.ok(fs.readFileSync(at).equals(other));
            fs.unlinkSync(at);
        }
    }
}

function byAnybody() {
    const { ends, whole } = typed('one', ' two'), [one, two] = saidOf('one', ' two');
    const [head, last] = [whole.subarray(0, HEAD), whole.subarray(ends[2])], before = whole.subarray(0, ends[2]);
    const zeros = (length) => Buffer.alloc(length);
    // What begins as a record may, at more places than are tried.
    const many = Buffer.concat(Array.from({ length: 4096 }, () => Buffer.concat([number(3, 4), zeros(4), number(1, 2), number(1, 1)])));
    const files = {
        'kind 3': [head, record(number(3, 1), entryOf(one.head, one.body).subarray(11))],
        'kind 0': [head, record(number(0, 1), claimOf(BOB, 2, RANK).subarray(11))],
        'a long claim': [head, record(claimOf(BOB, 2, RANK).subarray(10), zeros(1))],
        'a short claim': [head, record(claimOf(BOB, 2, RANK).subarray(10, -1))],
        'half a head': [head, record(entryOf(one.head, one.body).subarray(10, 84))],
        'half a length': [head, batch(Buffer.concat([claimOf(BOB, 2, RANK).subarray(8), zeros(1)]))],
        'a record that goes on behind its batch': [head, batch(Buffer.concat([number(68, 2), claimOf(BOB, 2, RANK).subarray(10)]))],
        'no body': [head, entryOf(one.head, zeros(0))],
        'another body': [head, entryOf(one.head, Buffer.concat([one.body, zeros(1)]))],
        'text 0': [head, entryOf({ ...one.head, text: 0 }, one.body)],
        'text 17': [head, entryOf({ ...one.head, text: 17 }, one.body)],
        'site 0': [head, claimOf(BOB, 0, RANK)],
        'a whole one behind zeros': [before, zeros(100), last],
        'a whole one behind one that is torn': [before.subarray(0, -1), last],
        'a claim behind one that is torn': [before.subarray(0, -1), claimOf(BOB, 2, RANK)],
        'a claim behind a length that says more': [before, number(5000, 4), zeros(4), claimOf(BOB, 2, RANK)],
        'a length that says less': [before, number(3, 4), zeros(8)],
        'a whole one far behind a length that says more': [before, number(2 ** 31, 4), zeros(9000), last],
        'at the last place': [before, zeros(4), many.subarray(11), last],
    };
    for (const [what, parts] of Object.entries(files)) {
        const data = Buffer.concat(parts), at = put(data);
        assert.throws(() => within(at, () => undefined), Damaged, what);
        assert.ok(fs.readFileSync(at).equals(data));
    }
    const torn = [zeros(0), zeros(1), zeros(5000), Buffer.concat([number(67, 4), zeros(71)]), last.subarray(0, -1),
        Buffer.concat([zeros(4), many, last])];
    for (const rest of torn) {
        within(put(Buffer.concat([before, rest])), (note) => {
            assert.deepEqual(note.kept(), [one]);
            give([two], note);
            assert.deepEqual([`${note.text()}`, note.kept()], ['one two', [one, two]]);
        });
    }
    // It may be changed while it is open, too.
    const at = put(whole);
    within(at, (note) => {
        fs.truncateSync(at, whole.length - 1);
        assert.throws(() => note.kept(), Damaged);
    });
}

// Memory that is refused says nothing of the file.
function withoutMemory() {
    const { at, whole } = typed('one');
    for (const name of ['noteOpen', 'noteClaim', 'noteAdd', 'noteUpdate']) {
        patched(calls, { [name]: () => [7] }, () => assert.throws(() => within(at, () => undefined), { code: 'OUT_OF_MEMORY' }));
    }
    assert.ok(fs.readFileSync(at).equals(whole));
    // What the disk has by then is said by the next call.
    within(at, (note) => {
        note.text().insert(3, '!');
        patched(calls, { noteUpdate: () => [7] }, () => assert.throws(() => note.say(ANN), { code: 'OUT_OF_MEMORY' }));
        const size = sizeOf(at), [, next] = note.kept();
        assert.deepEqual([note.say(ANN), `${note.text()}`, sizeOf(at)], [[next], 'one!', size]);
    });
}

// -- on bad disks: what is shown or said is there

function full() {
    const { at, whole } = typed('one'), bob = new Note(2, FOUNDING), note = Note.open(at, { site: 1, ...FOUNDING });
    bob.claim(BOB, 2, RANK);
    give(note.kept(), bob);
    bob.text().insert(0, 'Bob: ');
    const [its] = bob.say(BOB);
    note.add(its);
    const isFull = (why) => why.code === 'EFBIG' && why.path === fs.realpathSync(at);
    for (let room = 0; room < 100; room += 9) {
        fullAt(whole.length + room, () => assert.throws(() => note.update(), isFull));
        assert.deepEqual([`${note.text()}`, fs.readFileSync(at).equals(whole), note.kept().length], ['one', true, 1]);
    }
    for (let room = 0; room < 100; room += 9) {
        note.text().insert(note.text().length, '.');
        fullAt(whole.length + room, () => assert.throws(() => note.say(ANN), isFull));
        assert.ok(fs.readFileSync(at).equals(whole));
    }
    assert.equal(`${note.text()}`, `one${'.'.repeat(12)}`);
    // All own edits are said by one entry, as if none had been refused.
    const said = note.say(ANN);
    assert.deepEqual(said.map(({ head }) => [head.first, head.count]), [[2, 12]]);
    assert.deepEqual([`${note.text()}`, note.kept().slice(1)], [`Bob: one${'.'.repeat(12)}`, [its, ...said]]);
    // What couldn't be said isn't taken back by an update that comes before it can be.
    note.text().insert(0, '1');
    fullAt(sizeOf(at), () => {
        assert.throws(() => note.say(ANN), isFull);
        assert.throws(() => note.update(), isFull);
    });
    note.update();
    note.text().insert(1, '2');
    const [first, second] = note.say(ANN);
    assert.deepEqual([first.head.first, second.head.first, note.say(ANN)], [14, 15, []]);
    give([...said, first, second], bob);
    const now = state(note);
    assert.deepEqual(state(bob), now);
    note.close();
    within(at, (again) => assert.deepEqual([state(again), again.kept().slice(-2), again.say(ANN)], [now, [first, second], []]));
}

function failsAtRandom(seed) {
    const draw = drawn(seed), at = fresh(), said = [], reader = new Note(3, FOUNDING);
    const attempted = (use) => {
        try {
            failingAtRandom(draw, use);
        } catch (why) {
            if (why.code !== 'ENOSPC') throw why;
        }
    };
    /** @type {any} */
    let note;
    while (note === undefined) attempted(() => { note = Note.open(at, { site: 1, ...FOUNDING }); });
    for (let turn = 0; turn < 20; turn += 1) {
        note.text().insert(0, 'x');
        if (draw(4) === 0) note.claim(BOB, 2, Buffer.alloc(32, turn));
        attempted(() => said.push(...note.say(ANN)));
        // All that was said is in the file, also as another one reads it. (What could be written, and then not cut off, may be behind it.)
        const now = within(put(fs.readFileSync(at)), (other) => other.kept());
        assert.deepEqual([now.slice(0, said.length), now.length <= said.length + 1], [said, true]);
    }
    said.push(...note.say(ANN));
    give(said, reader);
    assert.deepEqual([note.kept(), `${reader.text()}`, state(reader)], [said, 'x'.repeat(20), state(note)]);
    note.close();
}

// What was written, and then couldn't be kept nor cut off, is none of what is kept, and the next one takes its place.
function leftOver() {
    const { at, whole } = typed('one'), [one] = saidOf('one');
    within(at, (note) => {
        let times = 0;
        const fdatasyncSync = () => { throw failing('kept'); };
        note.text().insert(0, 'x');
        patched(fs, { fdatasyncSync, ftruncateSync: () => { if ((times += 1) > 1) throw failing('cut off'); } }, () => {
            assert.throws(() => note.say(ANN), { code: 'ENOSPC' });
        });
        assert.ok(times === 2 && sizeOf(at) > whole.length);
        assert.deepEqual(note.kept(), [one]);
        const said = note.say(ANN);
        assert.deepEqual(note.kept(), [one, ...said]);
    });
    within(at, (note) => assert.equal(note.kept().length, 2));
}

// The folder is written once, before anything is shown.
function named() {
    const at = fresh();
    let times = 0;
    const fsyncSync = () => {
        times += 1;
        if (times === 1) throw failing('folder');
    };
    patched(fs, { fsyncSync }, () => {
        assert.throws(() => Note.open(at, { site: 1, ...FOUNDING }), { code: 'ENOSPC' });
        within(at, (note) => {
            note.text().insert(0, 'x');
            for (let turn = 0; turn < 3; turn += 1) note.say(ANN);
        });
    });
    assert.equal(times, 2);
}

// -- alone

function inAnotherProcess(at, program) {
    const founding = "key: Buffer.from('k'.repeat(32)), founder: Buffer.from('A'.repeat(32)), number: 1";
    return ['--input-type=module', '-e', `import { Note } from ${JSON.stringify(INDEX)};
        import { writeSync } from 'node:fs';
        const ANN = Buffer.from('A'.repeat(32)), note = Note.open(process.argv[1], { site: 1, ${founding} }), text = note.text();
        ${program}`, at];
}

function alone() {
    const { at } = typed('one'), moved = fresh();
    within(at, (note) => {
        assert.throws(() => Note.open(at, { site: 1, ...FOUNDING }), { code: 'EAGAIN', message: /open already/ });
        assert.ok(spawnSync(process.execPath, inAnotherProcess(at, '')).stderr.includes('open already'));
        note.text().insert(0, 'x');
        fs.renameSync(at, moved);
        assert.throws(() => note.say(ANN), { code: 'ENOENT', message: /the note isn't kept any more/ });
        fs.writeFileSync(at, 'another');
        assert.throws(() => note.say(ANN), { code: 'ENOENT' });
        fs.renameSync(moved, at);
        assert.equal(note.say(ANN).length, 1);
    });
    assert.equal(spawnSync(process.execPath, inAnotherProcess(at, '')).status, 0);
    assert.throws(() => Text.open(at), Damaged);
    const text = fresh();
    Text.open(text, { site: 1 }).close();
    assert.throws(() => Note.open(text, { site: 1, ...FOUNDING }), Damaged);
    // What is refused leaves the file to others.
    assert.throws(() => within(at, () => undefined, { key: ANN }), RangeError);
    within(at, (note) => assert.equal(`${note.text()}`, 'xone'));
}

async function killed() {
    const at = fresh();
    let length = 0;
    for (const size of [1, 1, 300, 3000, 1, 60_000]) {
        const program = `for (;;) {
            text.insert(text.length, '0123456789'.repeat(${size}));
            note.say(ANN);
            writeSync(1, text.length + '\\n');
        }`;
        const said = await untilKilled(spawn(process.execPath, inAnotherProcess(at, program), { stdio: ['ignore', 'pipe', 'inherit'] }));
        length = Math.max(length, ...said.map(Number));
        within(at, (note) => {
            const text = note.text();
            assert.ok(text.length >= length);
            ({ length } = text);
            assert.equal(`${text}`, '0123456789'.repeat(length / 10 + 1).slice(0, length));
            // Whoever is given what the file has shows the same.
            const reader = new Note(2, FOUNDING);
            give(note.kept(), reader);
            assert.deepEqual(state(reader), state(note));
        });
    }
}

vector();
for (let seed = 1; seed <= 20; seed += 1) asInMemory(seed);
begun();
ofAnother();
onlyOnce();
inNoFile();
tooLong();
cutOff();
changed();
byAnybody();
withoutMemory();
full();
for (let seed = 1; seed <= 20; seed += 1) failsAtRandom(seed);
leftOver();
named();
alone();
await killed();
console.log('kept notes: all is so');
