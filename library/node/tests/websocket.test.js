// Texts that meet by way of a relay: away and back, relays that end and lose what they had, histories that differ, disks that are full, and at
// random. In Node, with the package ws.
import { spawn } from 'node:child_process';
import fs from 'node:fs';
import { createRequire } from 'node:module';
import os from 'node:os';
import path from 'node:path';
import { setTimeout as sleep } from 'node:timers/promises';

import { assert, Buffer, PACKAGE, part, vialshoal } from './here.js';
import { drawn, edited } from './random.js';

const { FrontsDiffer, Presence, Text } = vialshoal;
const { WebSocketProvider } = await part('websocket.js');
const { Relay } = await part('relay.js');
const UTF_16 = { units: 'utf-16' };
const PATIENCE = 300_000;
let ws;

// Waits until something is so.
async function until(condition, what = `${condition}`) {
    for (const end = Date.now() + PATIENCE; !condition(); await sleep(2)) assert.ok(Date.now() < end, `waited for ${what}`);
}

// A relay at an address, and what becomes of it.
class Server {
    // Who is connected, and what came: the kind and the length of each frame.
    sockets = new Set();
    came = /** @type {any[]} */ ([]);

    constructor(open, port) {
        this.relay = new Relay(open);
        this.server = new ws.WebSocketServer({ host: '127.0.0.1', port });
        this.server.on('connection', (socket) => {
            this.sockets.add(socket);
            socket.on('close', () => this.sockets.delete(socket));
            socket.on('message', (data) => this.came.push([data[0], data.length]));
        });
        this.relay.serve(this.server);
    }

    static async made(open, port = 0) {
        const it = new Server(open, port);
        await new Promise((done) => { it.server.once('listening', done); });
        return it;
    }

    get port() {
        return this.server.address().port;
    }

    provider(text, options = {}) {
        // (the kinds of the frames that come to it)
        const got = /** @type {any[]} */ ([]);
        class Socket extends ws.WebSocket {
            constructor(url) {
                super(url);
                this.on('message', (data) => got.push(new Uint8Array(data)[0]));
            }
        }
        const provider = new WebSocketProvider(text, `ws://127.0.0.1:${this.port}/room`, { WebSocket: Socket, least: 5, most: 40, ...options });
        return Object.assign(provider, { got });
    }

    get text() {
        return this.relay.texts.get('/room');
    }

    cut() {
        this.sockets.forEach((socket) => socket.terminate());
    }

    async close() {
        this.relay.close();
        this.cut();
        await new Promise((done) => { this.server.close(done); });
    }
}

const texts = (count) => Array.from({ length: count }, (_, at) => new Text(1, at + 1, UTF_16));
const inMemory = () => new Text(1, 60_000);
const areSame = (...all) => all.every((one) => `${one}` === `${all[0]}` && `${[...one.fronts()]}` === `${[...all[0].fronts()]}`);
const synced = (...providers) => until(() => providers.every(({ isSynced }) => isSynced), 'all are synced');

// Has what one types come to the relay, which has done by then with all that came before it; its text.
async function goesRound(server, text) {
    text.insert(0, 'round ');
    await until(() => server.text.front(text.site) === text.front(text.site), 'the relay has it');
    return `${text}`;
}

async function meet() {
    const server = await Server.made(inMemory), [a, b] = texts(2);
    a.insert(0, 'before ');
    const [one, other] = [server.provider(a), server.provider(b)];
    await synced(one, other);
    await until(() => areSame(a, b), 'both are the same');
    b.insert(7, '\u20ac\ud83d\ude00');
    await until(() => areSame(a, b), 'what was typed comes');
    // Nothing comes back to who made it.
    const { length } = server.came;
    for (const letter of 'Oberon') {
        a.insert(0, letter);
        await until(() => areSame(a, b), 'each letter comes');
    }
    assert.deepEqual(server.came.slice(length).map(([kind]) => kind), Array(6).fill(2));
    assert.equal(one.got.filter((kind) => kind === 2).length, 1);
    // Nor does what the other one got go back with what that makes.
    server.came.length = 0;
    b.insert(0, '!');
    await until(() => areSame(a, b), 'it comes');
    assert.ok(server.came.length === 1 && server.came[0][1] < 40, JSON.stringify(server.came));
    // One who is away gives and gets what was made meanwhile, and no more.
    one.disconnect();
    assert.deepEqual([one.status, one.isSynced], ['offline', false]);
    a.insert(0, 'a'.repeat(100));
    b.insert(0, 'b'.repeat(100));
    await until(() => server.text.front(2) === b.front(2), 'the relay has it');
    assert.ok(!`${a}`.includes('b'.repeat(100)));
    server.came.length = 0;
    one.connect();
    await synced(one);
    await until(() => areSame(a, b, server.text), 'both have both');
    assert.ok(server.came.filter(([kind]) => kind === 2).length === 1 && server.came.every(([, size]) => size < 300), JSON.stringify(server.came));
    one.close();
    a.insert(0, 'alone');
    // (what another one makes goes round meanwhile)
    await goesRound(server, b);
    assert.ok(!areSame(a, b) && !`${b}`.includes('alone'));
    other.close();
    await server.close();
}

async function presences() {
    const server = await Server.made(inMemory), [a, b] = texts(2);
    const [ann, bob] = ['00000000000000aa', '00000000000000bb'].map((id) => new Presence({ id }));
    ann.set({ name: 'Ann' });
    const [one, other] = [server.provider(a, { presence: ann }), server.provider(b, { presence: bob })];
    await synced(one, other);
    bob.set({ name: 'Bob' });
    const sees = (who, whom, name) => who.states().get(whom.id)?.name === name;
    await until(() => sees(bob, ann, 'Ann') && sees(ann, bob, 'Bob'), 'they see each other');
    // Who is cut off is gone, and is there again once back, however often.
    for (let times = 0; times < 5; times += 1) {
        one.disconnect();
        await until(() => sees(bob, ann, undefined), 'Ann is gone');
        for (let said = 0; said < times % 3; said += 1) ann.set({ name: `Ann ${times}.${said}` });
        one.connect();
        await until(() => sees(bob, ann, ann.state.name), 'Ann is back');
    }
    other.close();
    await until(() => !ann.states().has(bob.id), 'Bob has left');
    one.close();
    await server.close();
}

// A relay that ends, with its file, and one that has lost everything: who comes brings it back.
async function restarts(folder) {
    const file = path.join(folder, 'room'), kept = () => Text.open(file, { site: 60_000 });
    const [a, b] = texts(2);
    let server = await Server.made(kept);
    const { port } = server;
    const [one, other] = [server.provider(a), server.provider(b)];
    await synced(one, other);
    a.insert(0, 'kept');
    await until(() => areSame(a, b), 'it comes');
    for (const open of [kept, () => new Text(1, 60_001)]) {
        await server.close();
        await until(() => one.status === 'offline' && other.status === 'offline', 'both are off line');
        a.insert(0, 'away ');
        server = await Server.made(open, port);
        await synced(one, other);
        await until(() => areSame(a, b, server.text), 'all is there again');
    }
    await server.close();
    const read = Text.open(file);
    assert.equal(`${read}`, 'away kept');
    read.close();
    [one, other].forEach((provider) => provider.close());
}

// Tries come after waits that grow, and begin anew once all was well.
async function waits() {
    const delays = [], { setTimeout: original } = globalThis;
    globalThis.setTimeout = /** @type {any} */ ((call, delay, ...words) => {
        delays.push(delay);
        return original(call, Math.min(delay, 1), ...words);
    });
    class Unreached extends EventTarget {
        constructor() {
            super();
            original(() => this.dispatchEvent(new Event('close')));
        }

        close() {}
    }
    const provider = new WebSocketProvider(new Text(1, 1), 'ws://nowhere', { WebSocket: Unreached });
    try {
        for (const end = Date.now() + PATIENCE; delays.length < 12;) {
            assert.ok(Date.now() < end);
            await new Promise((done) => { original(done, 2); });
        }
    } finally {
        provider.close();
        globalThis.setTimeout = original;
    }
    const most = delays.map((_, at) => Math.min(250 * 2 ** at, 30_000));
    assert.ok(delays.every((delay, at) => delay >= most[at] / 2 && delay <= most[at]), JSON.stringify(delays));
}

// Two who make operations as one site are told, whoever comes first, and the one that is told stays as it is.
async function differ() {
    const server = await Server.made(inMemory), [a] = texts(1), b = new Text(1, 1, UTF_16), c = new Text(1, 1, UTF_16);
    a.insert(0, 'one');
    b.insert(0, 'another');
    const one = server.provider(a);
    await synced(one);
    await until(() => server.text.front(1) === 1, 'the relay has it');
    for (const [text, seq] of [[b, 1], [c, 1]]) {
        const shown = `${text}`, other = server.provider(text);
        await until(() => other.status === 'refused', 'it is refused');
        assert.ok(other.error instanceof FrontsDiffer && other.error.site === 1 && other.error.seq === seq);
        assert.equal(`${text}`, shown);
        other.connect();
        assert.equal(other.status, 'refused');
        other.close();
    }
    // (one that goes on elsewhere while both are there)
    const d = new Text(1, 1, UTF_16);
    d.merge(a);
    const other = server.provider(d);
    await synced(other);
    a.insert(0, 'x');
    await until(() => other.status === 'refused', 'it is refused');
    assert.deepEqual([one.status, other.error.seq], ['online', 2]);
    [one, other].forEach((provider) => provider.close());
    await server.close();
}

// Nothing is sent before the store has it; where that can't have it, it is tried again.
async function stored() {
    const server = await Server.made(inMemory), [a, b] = texts(2), asked = [];
    const store = { kept: () => new Promise((resolve, reject) => { asked.push({ resolve, reject }); }) };
    const [one, other] = [server.provider(a, { store }), server.provider(b)];
    await synced(one, other);
    a.insert(0, 'one');
    await until(() => asked.length === 1, 'the store is asked');
    assert.equal(await goesRound(server, b), 'round ');
    asked[0].resolve();
    await until(() => areSame(a, b), 'it comes');
    a.insert(0, 'two ');
    await until(() => asked.length === 2, 'the store is asked');
    asked[1].reject(new Error('full'));
    await until(() => one.error?.message === 'full', 'the error is told');
    await until(() => asked.length === 3, 'the store is asked again');
    asked[2].resolve();
    await until(() => areSame(a, b), 'it comes then');
    await until(() => one.error === undefined, 'the error is over');
    [one, other].forEach((provider) => provider.close());
    await server.close();
}

// A relay whose disk is full hands nothing on, and all once it is kept.
async function full(folder) {
    const file = path.join(folder, 'full'), server = await Server.made(() => Text.open(file, { site: 60_000 })), [a, b] = texts(2);
    const [one, other] = [server.provider(a), server.provider(b)];
    await synced(one, other);
    const { fdatasyncSync } = fs;
    let tried = 0;
    fs.fdatasyncSync = () => {
        tried += 1;
        throw Object.assign(new Error('full'), { code: 'ENOSPC' });
    };
    a.insert(0, 'kept later');
    await until(() => !one.isSynced, 'it is cut off');
    await until(() => tried > 2, 'it is tried again');
    assert.equal(`${b}`, '');
    fs.fdatasyncSync = fdatasyncSync;
    await synced(one, other);
    await until(() => areSame(a, b), 'it comes');
    [one, other].forEach((provider) => provider.close());
    await server.close();
}

// Frames of anybody's end that connection, and nothing else.
async function anybody() {
    const server = await Server.made(inMemory), [a, b] = texts(2), [one, other] = [server.provider(a), server.provider(b)];
    await synced(one, other);
    const stranger = (frames) => new Promise((done) => {
        const socket = new ws.WebSocket(`ws://127.0.0.1:${server.port}/room`);
        socket.on('open', () => frames.forEach((one) => socket.send(one)));
        socket.on('close', (code) => done(code));
        socket.on('message', (data) => { if (data[0] === 4) socket.close(); });
    });
    const state = Buffer.concat([Buffer.from([1]), new Text(1, 9).state()]), wrong = Buffer.concat([Buffer.from([1]), new Text(2, 9).state()]);
    for (const frames of [[Buffer.from([1, 2, 3])], [wrong], [state, Buffer.from([2, 7])], [state, Buffer.from([4, 7])]]) {
        assert.equal(await stranger(frames), 1008);
    }
    for (const frames of [[state], ['', 'words', Buffer.from([2]), state]]) assert.equal(await stranger(frames), 1005);
    a.insert(0, 'on');
    await until(() => areSame(a, b), 'it goes on');
    assert.deepEqual([one.status, other.status], ['online', 'online']);
    [one, other].forEach((provider) => provider.close());
    await server.close();
}

// What came too early, and is kept until what it builds on comes from another one, goes to all then.
async function early() {
    const server = await Server.made(inMemory), [, b, c] = texts(3), made = new Text(1, 5, UTF_16);
    const [first] = made.insert(0, 'a'), had = made.fronts();
    made.insert(1, 'b');
    const [one, other] = [server.provider(b), server.provider(c)];
    await synced(one, other);
    const socket = new ws.WebSocket(`ws://127.0.0.1:${server.port}/room`);
    await new Promise((done) => { socket.on('open', done); });
    for (const [kind, bytes] of [[1, new Text(1, 5).state()], [2, made.pack(had)[0]]]) socket.send(Buffer.concat([Buffer.from([kind]), bytes]));
    await until(() => server.came.filter(([kind]) => kind === 2).length === 1, 'it has come');
    b.take(first);
    await until(() => areSame(b, c, server.text, made), 'all have both');
    socket.terminate();
    [one, other].forEach((provider) => provider.close());
    await server.close();
}

// The relay that docs/LIBRARY.md shows, at another port.
async function ofTheDocs(folder) {
    const page = `${fs.readFileSync(new URL('../../../docs/LIBRARY.md', import.meta.url))}`;
    const [, lines] = /** @type {RegExpMatchArray} */ (page.match(/^The relay, in Node[^\n]*\n\n((?: {4}[^\n]*\n|\n)+)/m));
    const port = await new Promise((done) => {
        const server = new ws.WebSocketServer({ port: 0 }, () => {
            const { port: free } = server.address();
            server.close(() => done(free));
        });
    });
    fs.mkdirSync(path.join(folder, 'node_modules'));
    fs.symlinkSync(PACKAGE, path.join(folder, 'node_modules/vialshoal'));
    fs.symlinkSync('/usr/share/nodejs/ws', path.join(folder, 'node_modules/ws'));
    fs.writeFileSync(path.join(folder, 'relay.mjs'), lines.replace('8000', `${port}`));
    const relay = spawn(process.execPath, ['--preserve-symlinks', 'relay.mjs'], { cwd: folder, stdio: 'inherit' });
    try {
        const all = texts(2), options = { WebSocket: ws.WebSocket, least: 5, most: 40 };
        const providers = all.map((text) => new WebSocketProvider(text, `ws://127.0.0.1:${port}/note`, options));
        await synced(...providers);
        all[0].insert(0, 'Oberon');
        await until(() => areSame(...all), 'it comes');
        providers.forEach((provider) => provider.close());
    } finally {
        relay.kill();
        await new Promise((done) => { relay.on('exit', done); });
    }
    const kept = Text.open(path.join(folder, 'note'));
    assert.equal(`${kept}`, 'Oberon');
    kept.close();
}

// Whatever ends whenever: all have all in the end.
async function atRandom(seed) {
    const draw = drawn(seed), server = await Server.made(inMemory), all = texts(3);
    // (what a listener makes while it is told is sent, too)
    all[2].subscribe(({ own }) => { if (!own && draw(20) === 0) all[2].insert(0, 'echo'); });
    const providers = all.map((text) => server.provider(text));
    for (let turn = 0; turn < 60; turn += 1) {
        const who = draw(3);
        if (draw(12) === 0) server.cut();
        else if (draw(8) === 0) providers[who].disconnect();
        else if (draw(4) === 0) providers[who].connect();
        else edited(draw, all[who]);
        if (draw(3) === 0) await sleep(draw(4));
    }
    providers.forEach((provider) => provider.connect());
    await until(() => areSame(...all, server.text), `all have all (${seed})`);
    assert.deepEqual(all.map((text, at) => text.front(at + 1)), [1, 2, 3].map((site) => server.text.front(site)));
    assert.deepEqual(providers.map(({ error }) => error), [undefined, undefined, undefined]);
    providers.forEach((provider) => provider.close());
    await server.close();
}

async function all() {
    const folder = fs.mkdtempSync(path.join(os.tmpdir(), 'vialshoal-'));
    try {
        await meet();
        await presences();
        await restarts(folder);
        await waits();
        await differ();
        await stored();
        await full(folder);
        await anybody();
        await early();
        await ofTheDocs(folder);
        for (let seed = 1; seed <= Number(process.env.VIALSHOAL_ROUNDS ?? 15); seed += 1) await atRandom(seed);
    } finally {
        fs.rmSync(folder, { recursive: true });
    }
    console.log('WebSocket: all is so');
}

try {
    ws = createRequire(import.meta.url)('/usr/share/nodejs/ws');
} catch {
    console.log('WebSocket: there is no package ws (node-ws), so nothing is tested');
}
if (ws !== undefined) await all();
