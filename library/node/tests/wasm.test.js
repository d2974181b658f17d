// What WebAssembly alone has: a memory that ends, addresses and lengths of 32 bits, and an addon that it stands in for.
// `--large` fills 4 GiB.
import { strict as assert } from 'node:assert';
import { execFileSync } from 'node:child_process';
import { cpSync, mkdtempSync, readFileSync, readdirSync, rmSync, writeFileSync } from 'node:fs';
import { tmpdir } from 'node:os';
import path from 'node:path';
import { fileURLToPath, pathToFileURL } from 'node:url';
import { runInNewContext } from 'node:vm';

import { PACKAGE, part } from './here.js';

const WASM = readFileSync(path.join(PACKAGE, 'vialshoal.wasm'));
const MEMORY = 5;
// Half of the pages that a memory can have.
const HALF = 32768;

function spelled(number) {
    return number < 128 ? [number] : [number % 128 + 128, ...spelled(Math.floor(number / 128))];
}

// The number that begins here, and where it ends.
function numberAt(at) {
    const low = WASM[at];
    if (low < 128) return [low, at + 1];
    const [high, end] = numberAt(at + 1);
    return [128 * high + low - 128, end];
}

// How many pages the module's memory has at first, and the module with a memory of other numbers, at first and at most.
function memory() {
    for (let at = 8, size; ; at += size) {
        const beg = at;
        [size, at] = numberAt(at + 1);
        if (WASM[beg] !== MEMORY) continue;
        assert.deepStrictEqual([...WASM.subarray(at, at + 2)], [1, 0]);
        return { beg, end: at + size, pages: numberAt(at + 2)[0] };
    }
}

function withMemory(least, most) {
    const { beg, end } = memory();
    const limits = [1, 1, ...spelled(least), ...spelled(most)];
    return Buffer.concat([WASM.subarray(0, beg), Buffer.from([MEMORY, ...spelled(limits.length), ...limits]), WASM.subarray(end)]);
}

const { pages: PAGES } = memory();

const from = (folder) => import(pathToFileURL(path.join(folder, 'index.js')).href);

// A copy of the package without an addon in a folder of its own, over this module.
async function packageOver(wasm, use) {
    const folder = mkdtempSync(path.join(tmpdir(), 'vialshoal-'));
    try {
        for (const name of readdirSync(PACKAGE)) {
            if (!/^vialshoal\.(node|wasm)$/.test(name)) cpSync(path.join(PACKAGE, name), path.join(folder, name), { recursive: true });
        }
        if (wasm !== undefined) writeFileSync(path.join(folder, 'vialshoal.wasm'), wasm);
        return await use(folder);
    } finally {
        rmSync(folder, { recursive: true });
    }
}

function wants(number, call) {
    assert.throws(call, { name: number < 101 ? 'Refused' : 'RangeError', number });
}

// What a call answers, or undefined where memory was refused.
function unlessRefused(call) {
    try {
        return call();
    } catch (error) {
        assert.deepStrictEqual([error.name, error.number], ['Refused', 7]);
        return undefined;
    }
}

// Edits, until memory is refused often. What was refused changed nothing but by the messages that it told; what follows is taken.
function fillsUp(folder, most) {
    return packageOver(withMemory(PAGES, PAGES + most), async (at) => {
        const { Refused, Text } = await from(at);
        const { Text: Other } = await from(folder);
        const text = unlessRefused(() => new Text(1, 1)), other = new Other(1, 2);
        if (text === undefined) return 1;
        let refused = 0;
        for (let edit = 0; edit < 200 && refused < 5; edit += 1) {
            const [data, pos] = [Buffer.alloc(1 + edit * 701 % 9000, 65 + edit % 26), edit * 37 % (text.length + 1)];
            let messages;
            try {
                messages = edit % 5 === 4 ? text.delete(0, Math.min(text.length, 50)) : text.insert(pos, data);
            } catch (error) {
                assert.ok(error instanceof Refused && error.number === 7, error);
                refused += 1;
                messages = error.messages;
            }
            for (const message of messages) assert.strictEqual(other.take(message).kind, 'taken');
            assert.strictEqual(text.length, other.length);
        }
        const shown = unlessRefused(() => text.bytes());
        assert.ok(shown === undefined || shown.equals(other.bytes()));
        for (const call of [() => text.store(), () => text.pack(), () => text.past([]), () => text.names(0, text.length), () => text.fronts()]) {
            if (unlessRefused(call) === undefined) refused += 1;
        }
        // What is closed is free for others.
        text.close();
        other.close();
        for (let turn = 0; turn < 3; turn += 1) {
            const next = unlessRefused(() => new Text(1, 1));
            if (next === undefined) break;
            unlessRefused(() => next.insert(0, 'Oberon'));
            next.close();
        }
        return refused;
    });
}

// A memory that ends answers that it is out of memory, wherever it ends.
async function memoryEnds() {
    await packageOver(WASM, async (folder) => {
        let refused = 0;
        for (let most = 0; most < 48; most += most < 16 ? 1 : 8) {
            try {
                refused += await fillsUp(folder, most);
            } catch (error) {
                // (too little to begin with)
                if (most > 3 || error.message !== 'vialshoal: memory was refused') throw error;
                refused += 1;
            }
        }
        assert.ok(refused > 60, `${refused}`);
    });
}

// All tests of calls pass where each address has its highest bit.
async function addressesAreHigh() {
    await packageOver(withMemory(HALF + 100, 2 * HALF), (folder) => {
        const test = fileURLToPath(new URL('text.test.js', import.meta.url));
        const said = execFileSync(process.execPath, [test], { env: { ...process.env, VIALSHOAL_PACKAGE: folder } });
        assert.strictEqual(`${said}`, 'text: all is so\n');
    });
}

// Lengths beyond 32 bits are no shorter ones.
async function lengthsAreLong() {
    await packageOver(WASM, async (folder) => {
        const { Text } = await from(folder);
        const text = new Text(1, 1);
        for (const letters of ['a', 'b', 'cde']) text.insert(text.length, letters);
        /** @type {[number, () => any, (file: any) => any][]} */
        const kinds = [
            [1, () => text.pack()[0], (chunk) => new Text(1, 2).unpack(chunk)],
            [13, () => text.store({ packed: true }), (file) => Text.load(file)],
        ];
        for (const [number, make, take] of kinds) {
            const made = make();
            // (6, and then how many there are beside two)
            assert.strictEqual(made.subarray(-5).toString('latin1'), '\x06\x01cde');
            take(made);
            for (const length of [0, 2, 2 ** 32, 2 ** 32 + 1, 2 ** 32 - 1, 2 ** 32 - 2, 2 ** 31, 2 ** 48 + 1]) {
                const wrong = Buffer.concat([made.subarray(0, -4), Buffer.from(spelled(length)), made.subarray(-3)]);
                if (length > 1) wants(number, () => take(wrong));
            }
        }
        const far = 2 ** 32;
        for (const call of [() => text.insert(far, 'x'), () => text.delete(0, far + 1), () => text.bytes(far, far + 2), () => text.names(0, far),
            () => text.recall(far), () => text.changeLooks(far, far, { colour: 2 })]) wants(103, call);
        assert.strictEqual(`${text}`, 'abcde');
    });
}

// Bytes of another context are bytes, and nothing else is.
async function bytesAreTold() {
    await packageOver(WASM, async (folder) => {
        const { Text } = await from(folder);
        const text = new Text(1, 1);
        text.insert(0, runInNewContext('new Uint8Array([79, 98])'));
        assert.strictEqual(`${text}`, 'Ob');
        for (const wrong of [7, null, [79], new Uint16Array(2), new ArrayBuffer(2), { [Symbol.toStringTag]: 'Uint8Array', length: 1 }]) {
            assert.throws(() => text.insert(0, wrong), TypeError);
            assert.throws(() => text.take(wrong), TypeError);
        }
    });
}

// An addon that doesn't load is none.
async function addonsAreChosen() {
    await packageOver(WASM, async (folder) => {
        writeFileSync(path.join(folder, 'vialshoal.node'), 'none');
        const { Text } = await from(folder);
        assert.strictEqual(new Text(1, 1).insert(0, 'Oberon').length, 1);
    });
    await packageOver(undefined, (folder) => assert.rejects(from(folder), /vialshoal\.node/));
}

// After a call that didn't come back none is made.
async function nothingFollowsATrap() {
    const { callsOf } = await part('wasm.js');
    // A memory; a function that answers 64, two that do nothing, and one that traps.
    const module = Buffer.from([0, 0x61, 0x73, 0x6d, 1, 0, 0, 0,
        1, 18, 3, 0x60, 1, 0x7f, 1, 0x7f, 0x60, 2, 0x7f, 0x7f, 0, 0x60, 3, 0x7f, 0x7f, 0x7f, 1, 0x7f,
        3, 4, 3, 0, 1, 2, 5, 3, 1, 0, 4,
        7, ...exported([['memory', 2, 0], ['vialshoal_wasm_allocate', 0, 0], ['vialshoal_wasm_free', 0, 1], ['vialshoal_new', 0, 2]]),
        10, 14, 3, 5, 0, 0x41, 0xc0, 0, 0x0b, 2, 0, 0x0b, 3, 0, 0, 0x0b]);
    const { open } = callsOf(new WebAssembly.Module(module));
    assert.throws(() => open(1, 1), WebAssembly.RuntimeError);
    assert.throws(() => open(1, 1), /did not come back/);
}

function exported(names) {
    const found = [names.length, ...names.flatMap(([name, kind, index]) => [name.length, ...Buffer.from(name), kind, index])];
    return [...spelled(found.length), ...found];
}

// What many sites put in, until all memory is taken.
async function fills() {
    await packageOver(WASM, async (folder) => {
        const { Text } = await from(folder);
        const [text, most] = [new Text(1, 1), 2 ** 24];
        let site = 2, refused = false;
        for (; !refused; site += 1) {
            const other = new Text(1, site);
            refused = [() => other.insert(0, Buffer.alloc(most, 64 + site % 26)), () => text.merge(other)]
                .some((call) => unlessRefused(call) === undefined);
            other.close();
        }
        console.log(`${text.length} bytes of ${text.fronts().size} sites`);
        assert.ok(text.length > 2 ** 28);
        const { pos, isShown } = text.find({ site: 2, offset: most - 1 });
        assert.deepStrictEqual([isShown, text.slice(pos - 1, pos), text.names(pos - 1, pos)], [true, 'B', [{ site: 2, offset: most - 1 }]]);
        text.close();
        const next = new Text(1, 1);
        next.insert(0, Buffer.alloc(most));
        assert.strictEqual(next.length, most);
    });
}

for (const test of [memoryEnds, addressesAreHigh, lengthsAreLong, bytesAreTold, addonsAreChosen, nothingFollowsATrap]) await test();
if (process.argv[2] === '--large') await fills();
console.log('WebAssembly: all is so');
