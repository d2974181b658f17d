// Texts that are kept in files: against texts in memory, cut off at each byte, on full disks, with bytes of anybody's, by killed programs; and
// with the Python package, which has the same files. In Node alone.
import { spawn, spawnSync } from 'node:child_process';
import fs from 'node:fs';
import { fileURLToPath } from 'node:url';

import { INDEX, failing, failingAtRandom, fresh, fullAt, patched, put, sizeOf, untilKilled } from './files.js';
import { assert, Buffer, part, vialshoal } from './here.js';
import { drawn, edited } from './random.js';

const { Damaged, FrontsDiffer, Text, UndoManager } = vialshoal;
const { Journal } = await part('journal.js');
const { calls } = await part('calls.js');
const LEAST = Journal.LEAST;

const state = (text) => [text.bytes().toString('hex'), text.runs(), [...text.fronts()], text.nameRanges(0, text.length), text.number, text.site];
const seqOf = (message) => message.readUInt32BE(8);

function within(at, use, options = {}) {
    const text = Text.open(at, options);
    try {
        return use(text);
    } finally {
        text.close();
    }
}

const least = (length, use) => patched(Journal, { LEAST: length }, use);

// -- as texts in memory

// A kept text, one in memory that does the same, and what the file had, by how long it was.
class Played {
    constructor(draw) {
        this.draw = draw;
        this.path = fresh();
        this.text = Text.open(this.path, { site: 1 });
        this.plain = new Text(1, 1);
        this.other = new Text(1, 2);
        this.sent = /** @type {any[]} */ ([]);
        this.had = [{ length: sizeOf(this.path), state: state(this.plain) }];
    }

    step() {
        const what = this.draw(6);
        if (what < 3) {
            const messages = edited(this.draw, this.text);
            messages.forEach((message) => this.plain.take(message));
            this.sent.push(...messages);
        } else if (what === 3) {
            this.again();
        } else {
            edited(this.draw, this.other);
            this.plain.merge(this.other);
            this.bring(this.draw(3));
            this.other.merge(this.text);
        }
        assert.deepEqual(state(this.text), state(this.plain));
        this.had.push({ length: sizeOf(this.path), state: state(this.plain) });
    }

    again() {
        this.text.close();
        this.text = Text.open(this.path);
    }

    bring(how) {
        if (how === 0) this.text.merge(this.other);
        else if (how === 1) this.other.pack(this.text.fronts()).forEach((chunk) => this.text.unpack(chunk));
        else [...this.other.since(this.text.fronts())].forEach((message) => this.text.take(message));
    }

    play(steps) {
        for (let step = 0; step < steps; step += 1) this.step();
        return this;
    }

    close() {
        for (const text of [this.text, this.plain, this.other]) text.close();
    }
}

function asInMemory(seed) {
    // (with the limit of 0 the file is written anew after nearly each call)
    least(seed % 2 === 0 ? 0 : LEAST, () => {
        const played = new Played(drawn(seed)).play(20);
        played.again();
        assert.deepEqual(state(played.text), state(played.plain));
        assert.deepEqual(played.sent.map(seqOf), played.sent.map((_, at) => at + 1));
        assert.deepEqual(played.text.insert(0, 'x'), played.plain.insert(0, 'x'));
        played.close();
    });
}

// Whatever is cut off, what was kept before that is there, and goes on.
function cutOff(seed) {
    const played = new Played(drawn(seed)).play(8);
    played.close();
    const whole = fs.readFileSync(played.path);
    for (let end = played.had[0].length; end <= whole.length; end += 1) {
        const { length, state: had } = /** @type {any} */ (played.had.filter((one) => one.length <= end).at(-1));
        const at = put(whole.subarray(0, end));
        const now = within(at, (text) => {
            assert.deepEqual([state(text), text.torn.toString('hex')], [had, whole.subarray(length, end).toString('hex')]);
            text.insert(0, 'new');
            return state(text);
        });
        // (to open it takes a process of its own where there is no addon)
        if (end % 4 === 0) within(at, (text) => assert.deepEqual([state(text), text.torn.length], [now, 0]));
        fs.unlinkSync(at);
    }
}

function begun() {
    const at = fresh();
    assert.throws(() => Text.open(at), { code: 'ENOENT' });
    within(at, (text) => assert.deepEqual([text.number, text.site, text.units], [7, 2, 'utf-16']), { text: 7, site: 2, units: 'utf-16' });
    for (const wrong of [{ site: 1 }, { text: 1 }, { text: 1, site: 2 }]) assert.throws(() => Text.open(at, wrong), /is of text 7 at site 2/);
    for (const right of [{}, { text: 7 }, { site: 2 }, { text: 7, site: 2 }]) within(at, (text) => assert.equal(text.site, 2), right);
    assert.throws(() => Text.open(put('')), /needs a site/);
    for (const wrong of [{ site: 0 }, { text: 65536, site: 1 }]) assert.throws(() => Text.open(fresh(), wrong), { code: 'NO_NUMBER' });
    assert.throws(() => Text.open(5, { site: 1 }), TypeError);
    // A new one that was cut off is new.
    const head = fs.readFileSync(at);
    for (let end = 0; end < head.length; end += 1) within(put(head.subarray(0, end)), (text) => assert.equal(text.insert(0, 'x').length, 1), { site: 1 });
    // What a batch makes is kept at its end, as one.
    within(at, (text) => {
        const size = sizeOf(at);
        assert.equal(text.batch(() => {
            text.insert(0, 'a');
            text.insert(1, 'b');
            assert.equal(sizeOf(at), size);
        }).length, 1);
        assert.ok(sizeOf(at) > size);
    });
    within(at, (text) => assert.equal(`${text}`, 'ab'));
}

// The list becomes one packed file, or one of chunks where that would be too long; the file stays where links lead, with its rights.
function grown() {
    const at = fresh(), link = fresh();
    fs.symlinkSync(at, link);
    within(link, (text) => {
        fs.chmodSync(at, 0o640);
        const sizes = Array.from({ length: 800 }, () => {
            text.insert(text.length, 'x'.repeat(100));
            return sizeOf(at);
        });
        assert.ok(sizes.some((size, at) => size < sizes[at - 1]));
        assert.ok(fs.readFileSync(at).includes(text.store({ packed: true }).subarray(0, 1000)));
        assert.deepEqual([fs.statSync(at).mode & 0o777, fs.existsSync(`${at}.new`), fs.lstatSync(link).isSymbolicLink()], [0o640, false, true]);
    }, { site: 1 });
    within(at, (text) => assert.equal(`${text}`, 'x'.repeat(80_000)));
    const much = fresh();
    const had = least(0, () => within(much, (text) => patched(calls, { storePacked: () => [13] }, () => {
        for (let times = 0; times < 10; times += 1) text.insert(0, 'x');
        return state(text);
    }), { site: 1 }));
    assert.ok(!fs.readFileSync(much).includes('OTP1'));
    within(much, (text) => assert.deepEqual(state(text), had));
}

// -- on bad disks: what was told as kept is there, and nothing is handed out that isn't

function full() {
    const at = fresh(), other = new Text(1, 2), told = [];
    const text = Text.open(at, { site: 1 });
    text.subscribe(({ messages }) => told.push(...messages));
    const sent = text.insert(0, 'kept');
    for (let room = 0; room < 60; room += 7) {
        const before = fs.readFileSync(at);
        fullAt(before.length + room, () => {
            const makes = [
                () => text.insert(0, Buffer.alloc(60, room)), () => text.pack(), () => text.store(), () => text.state(), () => other.merge(text),
                () => text.since([]).next(), () => text.batch(() => text.delete(0, 1)), () => text.keep(),
            ];
            for (const call of makes) assert.throws(call, (why) => why.code === 'EFBIG' && why.path === fs.realpathSync(at));
        });
        assert.ok(fs.readFileSync(at).equals(before));
        assert.deepEqual([told.length, `${other}`], [1, '']);
    }
    sent.push(...text.keep());
    assert.deepEqual(sent.map(seqOf), Array.from({ length: 19 }, (_, index) => index + 1));
    assert.deepEqual(told.map(seqOf), sent.map(seqOf));
    sent.forEach((message) => other.take(message));
    assert.deepEqual([`${other}`, text.keep()], [`${text}`, []]);
    // What was taken in is told as well.
    const [message] = other.insert(0, 'y'.repeat(100));
    fullAt(sizeOf(at), () => {
        for (const call of [() => text.take(message), () => text.unpack(other.pack()[0]), () => text.merge(other)]) assert.throws(call, { code: 'EFBIG' });
    });
    text.keep();
    const now = state(text);
    text.close();
    within(at, (again) => assert.deepEqual(state(again), now));
}

// An edit is taken back as it was made, also where that couldn't be kept at once.
function undone() {
    const text = Text.open(fresh(), { site: 1 }), undo = new UndoManager(text, { captureTime: 0 }), told = [];
    text.subscribe(({ messages }) => told.push(...messages.map(seqOf)));
    const other = new Text(1, 2);
    text.insert(0, 'one').forEach((message) => other.take(message));
    patched(fs, { fdatasyncSync: () => { throw failing('full'); } }, () => {
        assert.throws(() => text.insert(3, ' two'), { code: 'ENOSPC' });
        assert.throws(() => undo.undo(), { code: 'ENOSPC' });
    });
    assert.deepEqual([`${text}`, told], ['one', [1]]);
    undo.undo().chunks.forEach((chunk) => other.unpack(chunk));
    assert.deepEqual([other.front(1), other.waiting, `${other}`], [4, 0, '']);
    assert.deepEqual([`${text}`, text.keep().map(seqOf), told], ['', [], [1, 2, 3, 4]]);
    undo.redo();
    assert.equal(`${text}`, 'one');
    text.close();
}

function notRewritten() {
    const at = fresh();
    let tries = 0;
    const renameSync = () => {
        tries += 1;
        throw failing('renamed');
    };
    const had = least(0, () => within(at, (text) => patched(fs, { renameSync }, () => {
        for (let times = 0; times < 100; times += 1) text.insert(0, 'x');
        return state(text);
    }), { site: 1 }));
    assert.ok(tries > 0 && tries < 10 && !fs.existsSync(`${at}.new`));
    within(at, (text) => assert.deepEqual(state(text), had));
}

function failsAtRandom(seed) {
    const draw = drawn(seed), at = fresh();
    const kept = () => within(put(fs.readFileSync(at)), (text) => text.front(1));
    least(20, () => within(at, (text) => {
        const sent = [];
        for (let turn = 0; turn < 20; turn += 1) {
            failingAtRandom(draw, () => {
                try {
                    sent.push(...edited(draw, text));
                } catch (why) {
                    if (why.code !== 'ENOSPC') throw why;
                }
            });
            assert.ok(kept() >= sent.length);
        }
        sent.push(...text.keep());
        assert.deepEqual(sent.map(seqOf), sent.map((_, index) => index + 1));
        assert.deepEqual([sent.length, kept()], [text.front(1), text.front(1)]);
    }, { site: 1 }));
}

// -- bytes that something else has changed

function changed(seed) {
    const draw = drawn(seed), played = new Played(draw).play(8);
    played.close();
    const whole = fs.readFileSync(played.path);
    const lengths = [...new Set(played.had.map(({ length }) => length))].sort((one, other) => one - other);
    for (let turn = 0; turn < 40; turn += 1) {
        const beg = draw(whole.length + 1), end = Math.min(beg + draw(10), whole.length);
        const other = Buffer.concat([whole.subarray(0, beg), Buffer.from(Array.from({ length: draw(10) }, () => draw(256))), whole.subarray(end)]);
        try {
            // (what stands before the change is there, and nothing but the last entry may be missing)
            const found = JSON.stringify(within(put(other), state));
            const isCut = (length) => other.equals(whole.subarray(0, length));
            assert.ok(played.had.some((had) => JSON.stringify(had.state) === found && (had.length >= (lengths.at(-2) ?? 0) || isCut(had.length))));
        } catch (why) {
            if (!(why instanceof Damaged) && !/needs a site/.test(why.message)) throw why;
        }
    }
}

function byAnybody() {
    const at = fresh();
    const ends = within(at, (text) => [1, 2, 3].map(() => {
        text.insert(0, 'abc');
        return sizeOf(at);
    }), { site: 1 });
    const whole = fs.readFileSync(at);
    for (let byte = 0; byte < ends[1]; byte += 1) {
        const other = Buffer.from(whole);
        other[byte] ^= 1;
        assert.throws(() => Text.open(put(other)), Damaged);
    }
    within(put(Buffer.concat([whole.subarray(0, ends[1]), Buffer.alloc(40)])), (text) => assert.deepEqual([text.front(1), text.torn.length], [2, 40]));
    // What has the right sums is read as anybody's.
    const [text, other] = [new Text(1, 1), new Text(2, 1)];
    other.insert(0, 'x');
    text.insert(0, 'x');
    text.insert(0, 'y');
    const behind = (chunks) => Buffer.concat(chunks.flatMap((chunk) => [Buffer.from([chunk.length & 255, chunk.length >> 8]), chunk]));
    const files = [
        [Buffer.from([255, 255]), Damaged], [behind(other.pack()), Damaged], [behind(text.pack([[1, 1]])), Damaged],
        [behind(text.pack()).subarray(0, -1), Damaged], [Buffer.concat([behind(text.pack()), Buffer.from([1])]), Damaged],
        [behind([Buffer.from('OTC1\0\x01')]), undefined],
    ];
    for (const [chunks, expected] of files) {
        const journal = new Journal(fresh(), true);
        journal.begin(1, 1);
        journal.append(chunks);
        journal.close();
        if (expected === undefined) within(journal.path, () => undefined);
        else assert.throws(() => Text.open(journal.path), expected);
    }
    for (const history of [Buffer.from('none'), text.store(), new Text(2, 1).store({ packed: true }), new Text(1, 2).store({ packed: true })]) {
        const journal = new Journal(fresh(), true);
        journal.begin(1, 1);
        journal.rewrite(history);
        journal.close();
        assert.throws(() => Text.open(journal.path), Damaged);
    }
    for (const data of ['OTP1', `OTJ2${'0'.repeat(40)}`, 'none']) assert.throws(() => Text.open(put(data)), Damaged);
}

// -- alone

function inAnotherProcess(at, program = 'Text.open(process.argv[1])') {
    const words = ['--input-type=module', '-e', `import { Text } from ${JSON.stringify(INDEX)}; ${program}`, at];
    return spawnSync(process.execPath, words, { encoding: 'utf8' });
}

function alone() {
    const at = fresh(), moved = fresh();
    least(0, () => within(at, (text) => {
        for (let times = 0; times < 3; times += 1) {
            text.insert(0, 'x');
            assert.throws(() => Text.open(at), { code: 'EAGAIN', message: /open already/ });
            assert.ok(inAnotherProcess(at).stderr.includes('open already'));
        }
        fs.renameSync(at, moved);
        assert.throws(() => text.insert(0, 'x'), { code: 'ENOENT' });
        fs.renameSync(moved, at);
        assert.equal(text.keep().length, 1);
    }, { site: 1 }));
    assert.equal(inAnotherProcess(at).status, 0);
    const text = Text.open(at);
    text.close();
    text.close();
    for (const call of [() => text.insert(0, 'x'), () => text.keep(), () => text.pack()]) assert.throws(call, { code: 'NOT_OPEN' });
}

async function killed() {
    const at = fresh();
    const program = `import { Text } from ${JSON.stringify(INDEX)};
        import { writeSync } from 'node:fs';
        const text = Text.open(process.argv[1], { site: 1 });
        for (;;) {
            text.insert(text.length, '0123456789'.repeat(Number(process.argv[2])));
            writeSync(1, text.front(1) + '\\n');
        }`;
    let front = 0;
    for (const size of [1, 1, 300, 3000, 1, 60_000]) {
        const words = ['--input-type=module', '-e', program, at, `${size}`];
        const said = await untilKilled(spawn(process.execPath, words, { stdio: ['ignore', 'pipe', 'inherit'] }));
        front = Math.max(front, ...said.map(Number));
        within(at, (text) => {
            assert.ok(text.front(1) >= front);
            front = text.front(1);
            assert.equal(`${text}`, '0123456789'.repeat(text.length / 10 + 1).slice(0, text.length));
        });
    }
}

// -- a file that was copied: both go on, and meet

function copied() {
    const at = fresh();
    within(at, (text) => text.insert(0, 'both '), { site: 1 });
    const copy = put(fs.readFileSync(at)), other = new Text(1, 2);
    within(at, (text) => {
        text.insert(5, 'went on');
        other.merge(text);
    });
    other.insert(0, 'we ');
    const differs = { name: 'FrontsDiffer', number: 8, site: 1, seq: 2 };
    const ways = [
        (behind) => [...other.since([])].forEach((message) => behind.take(message)), (behind) => behind.merge(other),
        (behind) => other.pack().forEach((chunk) => behind.unpack(chunk)),
        (behind) => behind.batch(() => behind.merge(other)),
    ];
    for (const way of ways) {
        within(copy, (behind) => {
            assert.throws(() => way(behind), differs);
            for (const call of [() => behind.insert(0, 'x'), () => behind.take(Buffer.from('')), () => behind.keep()]) assert.throws(call, FrontsDiffer);
            const another = behind.copy(3);
            another.merge(other);
            assert.equal(`${another}`, 'we both went on');
        });
        within(copy, (behind) => assert.equal(`${behind}`, 'both '));
    }
}

// -- the Python package

function python(program, ...words) {
    const ran = spawnSync('/usr/bin/python3', ['-B', '-c', `import sys\nfrom vialshoal import Text\n${program}`, ...words], {
        encoding: 'utf8', env: { PYTHONPATH: fileURLToPath(new URL('../../python', import.meta.url)), ...process.env },
    });
    assert.equal(ran.status, 0, ran.stderr);
    return ran.stdout.replace(/\n$/, '');
}

const EDITS = `with Text.open(sys.argv[1], site=1, units="code points") as text, Text(1, site=2, units="code points") as other:
    for at in range(int(sys.argv[2])):
        text.insert(at // 2, "\\N{EURO SIGN}" * 40)
    other.merge(text)
    other.insert(0, "Python ")
    text.merge(other)
    print(text.state().hex(), str(text))`;
const TELLS = 'with Text.open(sys.argv[1], units="code points") as text: print(text.state().hex(), str(text), text.torn.hex())';
const REFUSED = `try:
    Text.open(sys.argv[1])
except BlockingIOError as why:
    print(why.strerror)`;

function withPython() {
    if (process.env.VIALSHOAL_LIBRARY === undefined) {
        console.log('kept texts: VIALSHOAL_LIBRARY names no library, so files are not tried with Python');
        return;
    }
    const tells = (text) => `${text.state().toString('hex')} ${text}`;
    // (so many that the list becomes one packed file, by Python and then by Node)
    for (const length of [0, 5, 700]) {
        const at = fresh();
        // Python begins, Node goes on, and then Python.
        const told = python(EDITS, at, `${length}`);
        const now = within(at, (text) => {
            assert.equal(tells(text), told);
            for (let edit = 0; edit < length; edit += 1) text.insert(text.length, 'x'.repeat(200));
            text.insert(0, 'Node ');
            assert.match(python(REFUSED, at), /open already/);
            return tells(text);
        }, { units: 'utf-16' });
        assert.equal(python(TELLS, at), `${now} `);
        // What is torn is so for both.
        const whole = fs.readFileSync(at), cut = put(whole.subarray(0, -3));
        const [torn, before] = within(put(whole.subarray(0, -3)), (text) => [text.torn.toString('hex'), tells(text)], { units: 'utf-16' });
        assert.equal(python(TELLS, cut), `${before} ${torn}`);
    }
}

for (let seed = 1; seed <= 40; seed += 1) asInMemory(seed);
for (let seed = 1; seed <= 2; seed += 1) cutOff(seed);
begun();
grown();
full();
undone();
notRewritten();
for (let seed = 1; seed <= 30; seed += 1) failsAtRandom(seed);
for (let seed = 1; seed <= 6; seed += 1) changed(seed);
byAnybody();
alone();
await killed();
copied();
withPython();
console.log('kept texts: all is so');
