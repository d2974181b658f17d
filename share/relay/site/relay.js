// A line to a relay: one WebSocket, on which one proves to have a note's link. It is connected again whenever it broke.
import { Trouble } from "./bytes.js";
import * as message from "./message.js";

const [CONNECT_MS, REPLY_MS, SOONEST_MS, LATEST_MS] = [20_000, 60_000, 500, 30_000];
// How often it is seen whether a silent relay is still there.
const ASK_MS = 30_000;

/** The relay can't be reached now. */
export class Away extends Trouble {}

/** A request isn't done, for one of the reasons of WHY. */
export class Refused extends Trouble {
  /** @param {number} why @param {string} words */
  constructor(why, words) {
    super(words);
    this.why = why;
  }
}

/** What hears on a line.
 * @typedef {{ up(): void, down(words: string): void, came(page: message.Page): void, said(presence: Uint8Array): void,
 *   told(why: number, words: string): void }} Ear */

export class RelayLine {
  #keys;
  #url;
  #ear;
  /** @type {WebSocket | null} */
  #socket = null;
  #isUp = false;
  #hasEnded = false;
  /** @type {Map<number, { done: (answer: any) => void, failed: (why: Error) => void, after?: string }>} */
  #waiting = new Map();
  #lastId = message.UNASKED;
  #tries = 0;
  /** @type {ReturnType<typeof setTimeout> | undefined} */
  #timer;
  #again = () => this.#connect();
  #offline = () => this.#broke("this machine is offline");

  /** @param {import("./keys.js").NoteKeys} keys @param {string} url @param {Ear} ear */
  constructor(keys, url, ear) {
    this.#keys = keys;
    this.#url = url;
    this.#ear = ear;
    globalThis.addEventListener?.("online", this.#again);
    globalThis.addEventListener?.("offline", this.#offline);
    this.#connect();
  }

  /** What the relay has after a place.
   * @param {string} after @param {number} most @returns {Promise<message.Page>} */
  read(after, most = message.MOST_OF_PAGE) {
    return this.#ask((id) => message.readMessage(id, most, after), after);
  }

  /** Has the relay keep entries, which are no more than one message has.
   * @param {Uint8Array[]} raws @returns {Promise<void>} */
  append(raws) {
    return this.#ask((id) => message.appendMessage(id, raws));
  }

  /** Says presence to all who are at the note now.
   * @param {Uint8Array} presence */
  say(presence) {
    if (this.#isUp) this.#socket?.send(message.presenceMessage(presence));
  }

  close() {
    this.#hasEnded = true;
    globalThis.removeEventListener?.("online", this.#again);
    globalThis.removeEventListener?.("offline", this.#offline);
    this.#broke("");
  }

  #connect() {
    clearTimeout(this.#timer);
    if (this.#socket || this.#hasEnded) return;
    const socket = new WebSocket(this.#url.replace("http", "ws") + message.SOCKET_PATH, message.SUBPROTOCOL);
    this.#socket = socket;
    socket.binaryType = "arraybuffer";
    socket.onclose = ({ reason }) => this.#broke(reason, socket);
    socket.onmessage = ({ data }) => this.#came(socket, data);
    this.#timer = setTimeout(() => this.#broke("it doesn't answer", socket), CONNECT_MS);
  }

  /** @param {WebSocket} socket @param {unknown} data */
  async #came(socket, data) {
    if (socket !== this.#socket) return;
    try {
      if (!(data instanceof ArrayBuffer)) throw new message.Misspelled("That is no message.");
      const bytes = new Uint8Array(data);
      if (this.#isUp) this.#take(bytes);
      else if (message.isWelcome(bytes)) this.#welcomed();
      else await this.#prove(socket, message.challengeOf(bytes));
    } catch (why) {
      if (!(why instanceof message.Misspelled)) throw why;
      this.#broke("what answers there is no relay", socket);
    }
  }

  /** @param {WebSocket} socket @param {Uint8Array} challenge */
  async #prove(socket, challenge) {
    const signature = await this.#keys.proof(challenge, this.#url);
    if (socket === this.#socket) socket.send(message.proofMessage(this.#keys, signature, this.#url));
  }

  #welcomed() {
    this.#isUp = true;
    this.#tries = 0;
    this.#askLater();
    this.#ear.up();
  }

  #askLater() {
    clearTimeout(this.#timer);
    this.#timer = setTimeout(() => this.read("", 0).catch(() => {}), ASK_MS);
  }

  /** @param {Uint8Array} data */
  #take(data) {
    this.#askLater();
    if (data[0] === message.READ) {
      const page = message.pageOf(data);
      if (page.id === message.UNASKED) this.#ear.came(page);
      else this.#answered(page.id, page, page.after);
    } else if (data[0] === message.APPEND) {
      this.#answered(message.keptOf(data), undefined);
    } else if (data[0] === message.PRESENCE) {
      this.#ear.said(message.presenceOf(data));
    } else if (data[0] === message.REFUSED) {
      const { id, why, words } = message.refusalOf(data);
      if (id === message.UNASKED) this.#ear.told(why, words);
      else this.#waiting.get(id)?.failed(new Refused(why, words));
    } else {
      throw new message.Misspelled("That is no message.");
    }
  }

  /** @param {number} id @param {message.Page | undefined} answer @param {string} [after] */
  #answered(id, answer, after) {
    const waiting = this.#waiting.get(id);
    if (waiting && waiting.after !== after) throw new message.Misspelled("That answers another question.");
    waiting?.done(answer);
  }

  /** @param {(id: number) => Uint8Array} spelled @param {string} [after] */
  async #ask(spelled, after) {
    if (!this.#isUp || !this.#socket) throw new Away("The relay can't be reached now.");
    this.#lastId = this.#lastId % (2 ** 32 - 1) + 1;
    const [id, socket] = [this.#lastId, this.#socket];
    const late = setTimeout(() => this.#broke("it doesn't answer", socket), REPLY_MS);
    try {
      return await new Promise((done, failed) => {
        this.#waiting.set(id, { done, failed, after });
        socket.send(spelled(id));
      });
    } finally {
      clearTimeout(late);
      this.#waiting.delete(id);
    }
  }

  /** Lets go of a connection, and tries again later.
   * @param {string} words @param {WebSocket | null} socket */
  #broke(words, socket = this.#socket) {
    if (socket !== this.#socket) return;
    this.#isUp = false;
    this.#socket = null;
    socket?.close();
    clearTimeout(this.#timer);
    for (const { failed } of this.#waiting.values()) failed(new Away("The relay can't be reached now."));
    if (this.#hasEnded) return;
    const wait = Math.min(LATEST_MS, SOONEST_MS * 2 ** this.#tries) * (0.5 + Math.random() / 2);
    this.#tries += 1;
    this.#timer = setTimeout(this.#again, wait);
    this.#ear.down(words);
  }
}
