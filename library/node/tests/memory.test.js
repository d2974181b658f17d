// Memory that texts hold: the collector takes dropped ones for as large as they are, and closed ones for nothing; `using` closes them.
// `--told` prints the figures.
import { strict as assert } from 'node:assert';
import { existsSync } from 'node:fs';
import path from 'node:path';
import { PerformanceObserver, constants } from 'node:perf_hooks';
import { setImmediate as turn } from 'node:timers/promises';

import { PACKAGE, vialshoal } from './here.js';

const { Text } = vialshoal;

const HAS_ADDON = existsSync(path.join(PACKAGE, 'vialshoal.node'));
const SIZE = 2 ** 20;
const TEXTS = 400;
// Many times what one text holds, and a part of what all do. Of WebAssembly the collector sees the memory of all texts as one.
const MOST = (HAS_ADDON ? 250 : 600) * SIZE;
const FEW = 5;

const file = new Text(1, 1);
file.insert(0, Buffer.alloc(SIZE, 65));
const packed = file.store({ packed: true });
file.close();

let collections = 0;
new PerformanceObserver((list) => {
    collections += list.getEntries().filter(({ detail }) => detail.kind === constants.NODE_PERFORMANCE_GC_MAJOR).length;
}).observe({ entryTypes: ['gc'] });

// By how much many texts make the process grow, one after the other, and how often the collector ran meanwhile.
async function grownBy(use) {
    const [before, ran] = [process.memoryUsage().rss, collections];
    let most = 0;
    for (let count = 0; count < TEXTS; count += 1) {
        use(Text.load(packed));
        // (what was collected is freed in a turn of its own)
        await turn();
        most = Math.max(most, process.memoryUsage().rss - before);
    }
    await turn();
    const told = `${TEXTS} texts: ${Math.round(most / SIZE)} MiB, ${collections - ran} collections`;
    if (process.argv[2] === '--told') console.log(told);
    return { most, ran: collections - ran, told };
}

async function areClosed() {
    const { ran, told } = await grownBy((text) => text.close());
    assert.ok(ran <= FEW, told);
}

async function areDropped() {
    const { most, told } = await grownBy((text) => assert.strictEqual(text.length, SIZE));
    assert.ok(most < MOST, told);
}

function areDisposed() {
    const text = new Text(1, 1), past = text.past([]);
    for (const one of [past, text]) {
        one[Symbol.dispose]();
        // (twice is as once)
        one[Symbol.dispose]();
        assert.throws(() => one.length);
    }
}

areDisposed();
await areClosed();
await areDropped();
console.log('memory: all is so');
