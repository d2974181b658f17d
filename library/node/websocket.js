// Brings a text, and who is there, to others by way of a relay, as long as one is reached.
import { Backlog } from './backlog.js';
import { BEHIND, FrontsDiffer } from './errors.js';
import { CHUNK, DIFFERS, DONE, PRESENCE, STATE, frame, unframed } from './frames.js';

const LEAST = 250;
const MOST = 30_000;
const TICK = 5_000;

function differs(bytes) {
    const { number, site, seq } = JSON.parse(new TextDecoder().decode(bytes));
    return new FrontsDiffer(number, site, seq);
}

export class WebSocketProvider {
    #text;
    #url;
    #presence;
    #store;
    #WebSocket;
    #least;
    #most;
    #backlog;
    // The connection, if there is one; what the other side has by now; how long is waited before the next try, and the timer of that.
    #socket;
    #theirs;
    #wait;
    #retry;
    #ticks;
    #ends;
    #listeners = new Set();
    #isWanted = false;
    // Whether what is new is sent soon, and who of us is to be told anew.
    #isDue = false;
    #isSayDue = false;
    // Whether the other side says next who is there, and is to be told that one is here, too.
    #isNew = false;

    constructor(text, url, options = /** @type {any} */ ({})) {
        const { presence, store, WebSocket = globalThis.WebSocket, least = LEAST, most = MOST, connect = true } = options;
        this.#text = text;
        this.#url = url;
        this.#presence = presence;
        this.#store = store;
        this.#WebSocket = WebSocket;
        [this.#least, this.#most, this.#wait] = [least, most, least];
        this.#backlog = new Backlog(text);
        this.status = 'offline';
        this.isSynced = false;
        this.error = undefined;
        this.#ends = [text.subscribe(({ origin }) => { if (origin !== this) this.#later(); })];
        if (presence !== undefined) {
            this.#ends.push(presence.subscribe((ids) => { if (ids.includes(presence.id)) this.#sayLater(); }));
            this.#ticks = setInterval(() => this.#tick(), TICK);
        }
        const back = () => this.#now();
        globalThis.addEventListener?.('online', back);
        this.#ends.push(() => globalThis.removeEventListener?.('online', back));
        if (connect) this.connect();
    }

    // -- the connection

    connect() {
        if (this.#isWanted || this.status === 'refused') return;
        this.#isWanted = true;
        this.#try();
    }

    // Is away until `connect` is called.
    disconnect() {
        this.#isWanted = false;
        clearTimeout(this.#retry);
        this.#drop();
        if (this.status !== 'refused') this.#is('offline', this.error);
    }

    close() {
        if (this.#presence?.state) this.#send(PRESENCE, this.#presence.set(null));
        this.disconnect();
        this.#ends.splice(0).forEach((end) => end());
        clearInterval(this.#ticks);
        this.#listeners.clear();
    }

    subscribe(listener) {
        this.#listeners.add(listener);
        return () => { this.#listeners.delete(listener); };
    }

    #is(status, error = /** @type {Error | undefined} */ (undefined), isSynced = false) {
        if (status === this.status && isSynced === this.isSynced && error === this.error) return;
        [this.status, this.isSynced, this.error] = [status, isSynced, error];
        for (const listener of [...this.#listeners]) listener(this);
    }

    #try() {
        if (this.#socket !== undefined) return;
        const socket = new this.#WebSocket(this.#url);
        this.#socket = socket;
        socket.binaryType = 'arraybuffer';
        this.#is('connecting', this.error);
        const isThis = (does) => (event) => { if (this.#socket === socket) this.#attempt(() => does(event)); };
        socket.addEventListener('open', isThis(() => this.#opened()));
        socket.addEventListener('message', isThis(({ data }) => this.#heard(unframed(data))));
        socket.addEventListener('close', isThis(() => this.#lost()));
        // (it is closed then)
        socket.addEventListener('error', () => undefined);
    }

    // The network may be there again.
    #now() {
        if (!this.#isWanted || this.#socket !== undefined) return;
        clearTimeout(this.#retry);
        this.#try();
    }

    #drop() {
        const socket = this.#socket;
        this.#socket = this.#theirs = undefined;
        socket?.close();
    }

    // What isn't reached now is tried again, after waits that grow.
    #lost(error = this.error) {
        this.#drop();
        if (!this.#isWanted) return;
        clearTimeout(this.#retry);
        this.#retry = setTimeout(() => this.#try(), this.#wait * (0.5 + Math.random() / 2));
        this.#wait = Math.min(2 * this.#wait, this.#most);
        this.#is('offline', error);
    }

    // What differs for good isn't tried again; what else goes wrong is.
    #attempt(does) {
        try {
            does();
        } catch (why) {
            if (!(why instanceof FrontsDiffer)) {
                this.#lost(why);
                return;
            }
            this.#isWanted = false;
            this.#drop();
            this.#is('refused', why);
        }
    }

    // -- what comes

    #opened() {
        this.#send(STATE, this.#text.state());
    }

    #heard({ kind, bytes }) {
        if (kind === STATE) this.#begun(bytes);
        else if (kind === CHUNK) this.#took(bytes);
        else if (kind === DONE) this.#done();
        else if (kind === PRESENCE) this.#sees(bytes);
        else if (kind === DIFFERS) throw differs(bytes);
    }

    #begun(state) {
        this.#theirs = this.#text.check(state);
        this.#is('online', this.error);
        this.#flush();
    }

    #done() {
        this.#wait = this.#least;
        this.#isNew = true;
        this.#is('online', undefined, true);
    }

    #took(chunk) {
        const { site } = this.#text, before = this.#text.fronts();
        let after = before;
        // (listeners, which may edit, are called at the end)
        this.#text.batch(() => {
            try {
                this.#backlog.take(chunk);
            } finally {
                after = this.#text.fronts();
                this.#theyHave(before, after);
            }
        }, this);
        const made = before.get(site) ?? 0;
        if ((after.get(site) ?? 0) > made) throw new FrontsDiffer(BEHIND, site, made + 1);
    }

    #theyHave(before, after) {
        for (const [author, front] of after) {
            const had = before.get(author) ?? 0;
            if (front > had && (this.#theirs?.get(author) ?? 0) >= had) this.#theirs?.set(author, front);
        }
    }

    #sees(bytes) {
        if (this.#presence === undefined) return;
        this.#presence.take(bytes);
        if (this.#isNew && this.#presence.state) this.#presence.set(this.#presence.state);
        this.#isNew = false;
        this.#tick();
    }

    // -- what is sent

    #send(kind, bytes = new Uint8Array(0)) {
        if (this.#socket?.readyState === 1) this.#socket.send(frame(kind, bytes));
    }

    #later() {
        if (this.#isDue || this.#theirs === undefined) return;
        this.#isDue = true;
        queueMicrotask(() => {
            this.#isDue = false;
            this.#attempt(() => this.#flush());
        });
    }

    // Sends what the other side doesn't have, once it is kept here.
    #flush() {
        if (this.#theirs === undefined) return;
        const socket = this.#socket, chunks = this.#text.pack(this.#theirs);
        this.#theirs = this.#text.fronts();
        const send = () => { if (this.#socket === socket) chunks.forEach((chunk) => this.#send(CHUNK, chunk)); };
        if (chunks.length === 0) return;
        if (this.#store === undefined) send();
        else this.#store.kept().then(send, (why) => { if (this.#socket === socket) this.#lost(why); });
    }

    #sayLater() {
        if (this.#isSayDue || this.#theirs === undefined) return;
        this.#isSayDue = true;
        queueMicrotask(() => {
            this.#isSayDue = false;
            if (this.#theirs !== undefined) this.#send(PRESENCE, this.#presence.encode([this.#presence.id]));
        });
    }

    #tick() {
        const bytes = this.#presence.tick();
        if (bytes !== undefined && this.#theirs !== undefined) this.#send(PRESENCE, bytes);
    }
}
