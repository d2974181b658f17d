// Makes the edits that bench/library hands over at one site, and takes their messages in at another, as library_sites.c does:
// by the addon, in bytes or UTF-16 units, or in Yjs. A file is also opened in a process that has done nothing before.
import { spawnSync } from 'node:child_process';
import fs from 'node:fs';
import { createRequire } from 'node:module';
import path from 'node:path';
import { fileURLToPath, pathToFileURL } from 'node:url';

const require = createRequire(import.meta.url);
const BENCH = path.dirname(fileURLToPath(import.meta.url));
const PACKAGE = path.resolve(BENCH, process.env.VIALSHOAL_PACKAGE ?? '../library/out/node');
const { Text } = await import(pathToFileURL(path.join(PACKAGE, 'index.js')).href);

const PASTE = 4000;
const READINGS = 10;
const LAST = 10;

class AddonSite {
    constructor(site, units) {
        this.begin = () => { this.text = new Text(1, site, { units }); };
        this.begin();
    }

    // Begins with an empty text again.
    anew() {
        this.text.close();
        this.begin();
    }

    insert(pos, letters) {
        return this.text.insert(pos, letters);
    }

    delete(beg, end) {
        return this.text.delete(beg, end);
    }

    take(message) {
        this.text.take(message);
    }

    shown() {
        return this.text.toString();
    }

    paste(letters) {
        return this.text.paste(0, letters);
    }

    // Makes edits whose messages nobody wants.
    prepare(edits) {
        edits.forEach((edit) => make(this, edit));
    }

    // How far it is, and what another site lacks that is so far.
    fronts() {
        return this.text.fronts();
    }

    since(fronts) {
        return this.text.pack(fronts);
    }

    file() {
        return this.text.store({ packed: true });
    }

    // (where UTF-16 units are is found as somebody asks)
    loaded(file) {
        this.text.close();
        this.text = Text.load(file, { units: this.text.units });
        return this.text.length;
    }
}

class YjsSite {
    constructor(site) {
        this.yjs = require('yjs');
        this.site = site;
        this.anew();
    }

    anew() {
        this.doc = new this.yjs.Doc();
        this.doc.clientID = this.site;
        this.text = this.doc.getText('1');
    }

    // Only an own edit is to be sent, so no one listens while messages are taken.
    #edited(edit) {
        let sent = [];
        this.doc.once('update', (message) => { sent = [message]; });
        edit();
        return sent;
    }

    insert(pos, letters) {
        return this.#edited(() => this.text.insert(pos, letters));
    }

    delete(beg, end) {
        return this.#edited(() => this.text.delete(beg, end - beg));
    }

    take(message) {
        this.yjs.applyUpdate(this.doc, message);
    }

    shown() {
        return this.text.toString();
    }

    paste(letters) {
        return this.insert(0, letters);
    }

    // (with a listener it takes minutes, where there are many)
    prepare(edits) {
        for (const { pos, letter } of edits) {
            if (letter === '') this.text.delete(pos, 1);
            else this.text.insert(pos, letter);
        }
    }

    fronts() {
        return this.yjs.encodeStateVector(this.doc);
    }

    since(fronts) {
        return this.yjs.encodeStateAsUpdate(this.doc, fronts);
    }

    file() {
        return this.yjs.encodeStateAsUpdate(this.doc);
    }

    loaded(file) {
        this.doc = new this.yjs.Doc();
        this.text = this.doc.getText('1');
        this.take(file);
    }
}

const SITES = {
    bytes: (site) => new AddonSite(site, 'bytes'),
    'utf-16': (site) => new AddonSite(site, 'utf-16'),
    yjs: (site) => new YjsSite(site),
};

// The most bytes that were resident.
function peak() {
    return Number(/VmHWM:\s*(\d+)/.exec(fs.readFileSync('/proc/self/status', 'latin1'))[1]) * 1024;
}

function make(site, { pos, letter }) {
    return letter === '' ? site.delete(pos, pos + 1) : site.insert(pos, letter);
}

// The seconds of the clock, and those of the processors.
function timed(work) {
    const begin = process.hrtime.bigint(), before = process.cpuUsage();
    work();
    const { user, system } = process.cpuUsage(before);
    return { clock: Number(process.hrtime.bigint() - begin) / 1e9, busy: (user + system) / 1e6 };
}

function least(readings) {
    return readings.reduce((one, other) => (other.busy < one.busy ? other : one));
}

function pasted(site, edits) {
    for (let at = 0; at < edits.length; at += PASTE) {
        site.insert(at, edits.slice(at, at + PASTE).map(({ letter }) => letter).join(''));
    }
}

function editsOf(lines) {
    return lines.toString('latin1').split('\n').slice(0, -1).map((line) => {
        const [pos, letter] = line.split(' ').map(Number);
        return { pos, letter: letter === 0 ? '' : String.fromCharCode(letter) };
    });
}

const [kind, mode, keys = '10000'] = process.argv.slice(2);
const a = SITES[kind](1), b = SITES[kind](2);
const given = fs.readFileSync(0);
const edits = mode === 'once' ? [] : editsOf(given);
const allOf = (site, these) => these.flatMap((edit) => make(site, edit));
// By the name of what is timed, what comes before it, and it.
const MODES = {
    typed: () => () => edits.forEach((edit) => make(a, edit).forEach((message) => b.take(message))),
    made: () => () => edits.forEach((edit) => make(b, edit)),
    joined: () => {
        const messages = allOf(a, edits);
        return () => messages.forEach((message) => b.take(message));
    },
    read: () => {
        pasted(b, edits);
        // (a string that is joined of others is copied as one looks into it)
        return () => b.shown().charCodeAt(edits.length >> 1);
    },
    pasted: () => {
        const letters = edits.map(({ letter }) => letter).join('');
        return () => {
            b.anew();
            b.paste(letters);
        };
    },
    // The last ones, after those before came in at once.
    far: () => {
        b.paste(edits.slice(0, -Number(keys)).map(({ letter }) => letter).join(''));
        return () => edits.slice(-Number(keys)).forEach((edit) => make(b, edit));
    },
    since: () => {
        b.prepare(edits.slice(0, -LAST));
        const fronts = b.fronts();
        b.prepare(edits.slice(-LAST));
        return () => b.since(fronts);
    },
    loaded: () => {
        allOf(a, edits);
        const file = a.file();
        return () => b.loaded(file);
    },
    // What is handed over is a file.
    once: () => () => b.loaded(given),
};

if (mode === 'opened') {
    // (here V8's other threads may still be at work for the edits)
    allOf(a, edits);
    const { status } = spawnSync(process.execPath, ['--expose-gc', process.argv[1], kind, 'once'],
        { input: a.file(), stdio: ['pipe', 'inherit', 'inherit'] });
    process.exit(status ?? 1);
}
const work = MODES[mode]();
global.gc?.();
const before = peak();
const seconds = ['read', 'pasted', 'since', 'loaded'].includes(mode) ? least(Array.from({ length: READINGS }, () => timed(work))) : timed(work);
process.stdout.write(`${seconds.clock.toFixed(9)} ${seconds.busy.toFixed(9)} ${peak() - before}\n${b.shown()}\n`);
