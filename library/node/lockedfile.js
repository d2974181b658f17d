// A file that nobody else has open meanwhile, and of which the disk has what is written.
import { Buffer } from 'node:buffer';
import { spawnSync } from 'node:child_process';
import fs from 'node:fs';
import os from 'node:os';
import path from 'node:path';

import { calls } from './calls.js';

const { O_RDWR, O_CREAT, O_RDONLY } = fs.constants;

function failure(code, words, at) {
    return Object.assign(new Error(`${code}: ${words}, '${at}'`), { code, path: at });
}

// Locks a file until it is closed. Whether nobody else has it locked.
function isLocked(file, at) {
    if (calls.lock !== undefined) {
        const number = calls.lock(file);
        if (number !== 0 && number !== os.constants.errno.EWOULDBLOCK) throw failure('ENOLCK', 'it cannot be locked', at);
        return number === 0;
    }
    // (a lock is of what was opened, which the command gets from here)
    const { status } = spawnSync('flock', ['-x', '-n', '3'], { stdio: ['ignore', 'ignore', 'ignore', file] });
    if (status !== 0 && status !== 1) throw failure('ENOLCK', 'it cannot be locked: without the addon that takes the command flock', at);
    return status === 0;
}

// Where a file is, or is to be, whatever links lead there.
function resolved(at) {
    if (fs.existsSync(at)) return fs.realpathSync(at);
    const isLink = fs.lstatSync(at, { throwIfNoEntry: false })?.isSymbolicLink();
    return isLink ? resolved(path.resolve(path.dirname(at), fs.readlinkSync(at))) : path.resolve(at);
}

function hasName(file, at) {
    const named = fs.statSync(at, { bigint: true, throwIfNoEntry: false });
    const { dev, ino } = fs.fstatSync(file, { bigint: true });
    return named !== undefined && named.dev === dev && named.ino === ino;
}

// The file that has a name, once nobody else has it open.
function locked(at, mayBeMade) {
    for (; ;) {
        const file = fs.openSync(at, mayBeMade ? O_RDWR | O_CREAT : O_RDWR, 0o666);
        try {
            if (!isLocked(file, at)) throw failure('EAGAIN', 'it is open already: a site goes on from its file once at a time', at);
            // (the one who had it open may have put another file in its place)
            if (hasName(file, at)) return file;
        } catch (why) {
            fs.closeSync(file);
            throw why;
        }
        fs.closeSync(file);
    }
}

// Has a file end with these bytes, and the disk have them.
function write(file, at, data) {
    fs.ftruncateSync(file, at);
    for (let done = 0; done < data.length;) done += fs.writeSync(file, data, done, data.length - done, at + done);
    fs.fdatasyncSync(file);
}

// Has the disk know a file by its name.
function syncFolderOf(at) {
    const folder = fs.openSync(path.dirname(at), O_RDONLY);
    try {
        fs.fsyncSync(folder);
    } finally {
        fs.closeSync(folder);
    }
}

function attempted(call) {
    try {
        call();
    } catch (why) {
        if (why.code === undefined) throw why;
    }
}

// Whether these bytes are, as far as they go, what others begin with.
export function isAllOf(beg, whole) {
    return whole.subarray(0, beg.length).equals(beg);
}

export class LockedFile {
    #path;
    #file;
    // What it is the file of, in a word.
    #what;
    // Whether the folder has the file on the disk.
    #isNamed = false;

    constructor(at, what, mayBeMade) {
        this.#path = resolved(at);
        this.#what = what;
        this.#file = locked(this.#path, mayBeMade);
    }

    get path() {
        return this.#path;
    }

    close() {
        fs.closeSync(this.#file);
    }

    // All that it has.
    contents() {
        const data = Buffer.alloc(fs.fstatSync(this.#file).size);
        let end = 0;
        for (let count = 1; count > 0 && end < data.length; end += count) count = fs.readSync(this.#file, data, end, data.length - end, end);
        return data.subarray(0, end);
    }

    // Has the disk have what it has.
    sync() {
        fs.fdatasyncSync(this.#file);
    }

    // Has it end with these bytes, and the disk have them. Where this throws, it has what it had before this place.
    writeAt(at, data) {
        if (!hasName(this.#file, this.#path)) {
            throw failure('ENOENT', `it was moved or taken away, and the ${this.#what} isn't kept any more`, this.#path);
        }
        try {
            write(this.#file, at, data);
            if (!this.#isNamed) syncFolderOf(this.#path);
            this.#isNamed = true;
        } catch (why) {
            // (what is there of it isn't whole, and the next one takes its place)
            attempted(() => fs.ftruncateSync(this.#file, at));
            throw Object.assign(why, { path: this.#path, message: `${why.message}, '${this.#path}'` });
        }
    }

    // Puts a file that has this alone in place of this one, with its rights.
    replaceBy(data) {
        const beside = `${this.#path}.new`, old = fs.fstatSync(this.#file);
        const file = fs.openSync(beside, O_RDWR | O_CREAT, 0o600);
        try {
            // (locked before it has the name, so that nobody else comes in between)
            if (!isLocked(file, beside)) throw failure('EAGAIN', 'another one writes it', beside);
            write(file, 0, data);
            fs.fchmodSync(file, old.mode & 0o7777);
            if (old.uid !== process.geteuid?.() || old.gid !== process.getegid?.()) fs.fchownSync(file, old.uid, old.gid);
            fs.renameSync(beside, this.#path);
        } catch (why) {
            fs.closeSync(file);
            attempted(() => fs.unlinkSync(beside));
            throw why;
        }
        const was = this.#file;
        [this.#file, this.#isNamed] = [file, false];
        attempted(() => fs.closeSync(was));
    }
}
