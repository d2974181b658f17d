// Brings what each of its sites makes to the others, with a text of its own for each room, in which it edits nothing. It is small, for tests
// and demonstrations: whoever reaches it may read and write. The sockets are those of Node's package ws, or as these.
import { Backlog } from './backlog.js';
import { FrontsDiffer } from './errors.js';
import { CHUNK, DIFFERS, DONE, PRESENCE, STATE, frame, unframed } from './frames.js';
import { Presence } from './presence.js';

const TICK = 5_000;
// What a socket is closed with: it sent what is refused; or nothing can be kept here now.
const POLICY = 1008, INTERNAL = 1011;

class Room {
    #text;
    #backlog;
    #presence = new Presence();
    // Those who are here, each with the ids that were heard by way of it, once it said its state.
    #members = new Map();
    /** @type {any} */
    #ticks;

    constructor(text) {
        this.#text = text;
        this.#backlog = new Backlog(text);
        this.#ticks = setInterval(() => this.#presence.tick(), TICK);
        this.#ticks.unref?.();
    }

    get text() {
        return this.#text;
    }

    get size() {
        return this.#members.size;
    }

    #send(socket, kind, bytes = new Uint8Array(0)) {
        if (socket.readyState === 1) socket.send(frame(kind, bytes));
    }

    // Sends the others what one sent.
    #pass(from, kind, bytes) {
        for (const socket of this.#members.keys()) if (socket !== from) this.#send(socket, kind, bytes);
    }

    heard(socket, data) {
        const { kind, bytes } = unframed(data);
        const isHere = this.#members.has(socket);
        if (kind === STATE && !isHere) {
            this.#comes(socket, bytes);
        } else if (kind === CHUNK && isHere) {
            this.#took(socket, bytes);
        } else if (kind === PRESENCE && isHere) {
            this.#presence.take(bytes).forEach((id) => this.#members.get(socket).add(id));
            this.#pass(socket, PRESENCE, bytes);
        }
    }

    // Takes a chunk in, and sends all others what is new by that, perhaps also what came too early before.
    #took(socket, chunk) {
        const before = this.#text.fronts(), early = this.#backlog.length;
        try {
            this.#backlog.take(chunk);
        } finally {
            try {
                this.#text.pack(before).forEach((news) => this.#pass(early > 0 ? undefined : socket, CHUNK, news));
            } catch (why) {
                // (who comes again gets what can't be kept now)
                this.dismiss();
                throw why;
            }
        }
    }

    dismiss() {
        for (const socket of this.#members.keys()) socket.close(INTERNAL, 'it cannot be kept now');
    }

    #comes(socket, state) {
        let theirs;
        try {
            theirs = this.#text.check(state);
        } catch (why) {
            if (!(why instanceof FrontsDiffer)) throw why;
            this.#send(socket, DIFFERS, new TextEncoder().encode(JSON.stringify({ number: why.number, site: why.site, seq: why.seq })));
            socket.close(POLICY, 'the histories differ');
            return;
        }
        this.#send(socket, STATE, this.#text.state());
        for (const chunk of this.#text.pack(theirs)) this.#send(socket, CHUNK, chunk);
        this.#send(socket, DONE);
        this.#send(socket, PRESENCE, this.#presence.encode());
        this.#members.set(socket, new Set());
    }

    left(socket) {
        const ids = this.#members.get(socket) ?? new Set();
        this.#members.delete(socket);
        for (const others of this.#members.values()) for (const id of others) ids.delete(id);
        this.#pass(socket, PRESENCE, this.#presence.leave(ids));
    }

    close() {
        clearInterval(this.#ticks);
        for (const socket of this.#members.keys()) socket.close();
        this.#members.clear();
        this.#text.close();
    }
}

export class Relay {
    #open;
    #rooms = new Map();

    // `open(name)` answers the text of a room; that of `Text.open` keeps it. Its site is one that nobody else is.
    constructor(open) {
        this.#open = open;
    }

    // The texts of the rooms, by their names.
    get texts() {
        return new Map([...this.#rooms].map(([name, { text }]) => [name, text]));
    }

    // Has a socket take part in a room.
    connect(socket, name) {
        const attempt = (does) => {
            try {
                does();
            } catch (why) {
                socket.close(why.path === undefined ? POLICY : INTERNAL, String(why.message).slice(0, 40));
            }
        };
        socket.on('error', () => socket.terminate?.());
        attempt(() => {
            const room = this.#room(name);
            socket.on('message', (data) => attempt(() => room.heard(socket, data)));
            socket.on('close', () => room.left(socket));
        });
    }

    #room(name) {
        let room = this.#rooms.get(name);
        if (room === undefined) this.#rooms.set(name, room = new Room(this.#open(name)));
        return room;
    }

    // Takes part for a server of the package ws: a room by each path.
    serve(server) {
        server.on('connection', (socket, { url }) => this.connect(socket, new URL(url, 'ws://relay').pathname));
        return this;
    }

    close() {
        for (const room of this.#rooms.values()) room.close();
        this.#rooms.clear();
    }
}
