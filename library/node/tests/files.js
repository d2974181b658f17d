// What tests of files use: files of their own, other calls in place of Node's, and disks that are full.
import { spawnSync } from 'node:child_process';
import fs from 'node:fs';
import os from 'node:os';
import path from 'node:path';
import { pathToFileURL } from 'node:url';

import { assert, PACKAGE } from './here.js';
import { drawn } from './random.js';

export const INDEX = pathToFileURL(path.join(PACKAGE, 'index.js')).href;
const draw = drawn(1);
const FOLDER = fs.mkdtempSync(path.join(os.tmpdir(), 'vialshoal-'));
let count = 0;

process.on('exit', () => fs.rmSync(FOLDER, { recursive: true }));

export const fresh = () => path.join(FOLDER, `note-${count += 1}`);
// A file with these bytes.
export function put(data) {
    const at = fresh();
    fs.writeFileSync(at, data);
    return at;
}
export const sizeOf = (at) => fs.statSync(at).size;
export const failing = (name) => Object.assign(new Error(name), { code: 'ENOSPC' });

// Does something while some calls of Node's are others.
export function patched(object, others, use) {
    const were = Object.fromEntries(Object.keys(others).map((name) => [name, object[name]]));
    Object.assign(object, others);
    try {
        return use(were);
    } finally {
        Object.assign(object, were);
    }
}

// Has files grow no longer than this, as on a disk that is full then.
export function fullAt(length, use) {
    const limit = (soft) => spawnSync('prlimit', ['--pid', `${process.pid}`, `--fsize=${soft}:`]).status;
    assert.equal(limit(length), 0);
    try {
        return use();
    } finally {
        limit('unlimited');
    }
}

// Has one call in five that writes fail, perhaps within what it writes.
export function failingAtRandom(draw, use) {
    const fails = (name) => (...words) => {
        if (draw(5) > 0) return were[name](...words);
        if (name === 'writeSync') were[name](words[0], words[1], words[2], draw(words[3] + 1), words[4]);
        throw failing(name);
    };
    const names = ['writeSync', 'fdatasyncSync', 'ftruncateSync', 'fsyncSync', 'renameSync'];
    const were = Object.fromEntries(names.map((name) => [name, fs[name]]));
    return patched(fs, Object.fromEntries(names.map((name) => [name, fails(name)])), use);
}

// Return the whole lines that a program wrote before it was killed, which happens after some lines. The kill may have cut the last one.
export async function untilKilled(child) {
    const lines = 1 + draw(7);
    let said = '';
    for await (const data of child.stdout) {
        said += data;
        if (said.split('\n').length > lines) child.kill('SIGKILL');
    }
    return said.split('\n').slice(0, -1);
}
