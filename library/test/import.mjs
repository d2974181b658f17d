// The package as users have it, by its name: `import`, `require` where Node has it for such modules, a worker of Node. `node library/test/import.mjs PACKAGE`
import assert from 'node:assert';
import { cpSync, mkdtempSync, rmSync, writeFileSync } from 'node:fs';
import { execFileSync } from 'node:child_process';
import { tmpdir } from 'node:os';
import path from 'node:path';

const SAYS = 'const a = new Text(1, 1), b = new Text(1, 2); for (const message of a.insert(0, "Oberon")) b.take(message); say(`${b}`);';
const PROGRAMS = {
    'import.mjs': `import { Past, Refused, Shown, Text } from 'vialshoal'; const say = console.log; ${SAYS}`,
    'default.mjs': `import vialshoal from 'vialshoal'; const { Text } = vialshoal, say = console.log; ${SAYS}`,
    'later.cjs': `import('vialshoal').then(({ Text }) => { const say = console.log; ${SAYS} })`,
    'worker.mjs': `import { Worker, isMainThread, parentPort } from 'worker_threads'; import { Text } from 'vialshoal';
        if (isMainThread) new Worker(new URL(import.meta.url)).on('message', console.log);
        else { const say = (words) => parentPort.postMessage(words); ${SAYS} }`,
};
if (process.features.require_module) {
    PROGRAMS['require.cjs'] = `const { Past, Refused, Shown, Text } = require('vialshoal'), say = console.log; ${SAYS}`;
}

const folder = mkdtempSync(path.join(tmpdir(), 'vialshoal-'));
try {
    cpSync(process.argv[2], path.join(folder, 'node_modules', 'vialshoal'), { recursive: true });
    for (const [name, program] of Object.entries(PROGRAMS)) {
        writeFileSync(path.join(folder, name), program);
        assert.strictEqual(`${execFileSync(process.execPath, [name], { cwd: folder })}`, 'Oberon\n', name);
    }
} finally {
    rmSync(folder, { recursive: true });
}
console.log('node, by its name: all is so');
