// The way to the page's server: lines come and go. Where the server has ended it is waited for, and known again by a key that
// it gave the page, since whoever has its port meanwhile may be another one.
import { hex, Lines, pieces } from "./client.js";

const PIECE = 1 << 17;
const AGAIN_MS = 500;
const HELD_MS = 20;
const NONCE_BYTES = 32;
// How the server ends a WebSocket whose secret is wrong, and one whose engine has ended.
const WRONG_SECRET = 1008;
const NO_ENGINE = 1011;

/** What a user is told of an end. */
function wordsOf(code, reason) {
  if (code === WRONG_SECRET) return "This page can't be opened so: open the file that bin/note web has named.";
  return code === NO_ENGINE ? `${reason} It is started again.`
    : "bin/note web has ended. This page goes on when it runs again.";
}

/** What shows that somebody has the key, as `guard.py` spells it. */
async function proof(key, who, ...nonces) {
  const words = new TextEncoder().encode([who, location.host, ...nonces].join(" "));
  const algorithm = { name: "HMAC", hash: "SHA-256" };
  const made = await crypto.subtle.importKey("raw", new TextEncoder().encode(key), algorithm, false, ["sign"]);
  return hex(await crypto.subtle.sign(algorithm, made, words));
}

export class Connection {
  #socket;
  #told;
  // By which the page and its server know each other again.
  #key = "";
  #nonce = "";
  // Whether the server is known to be the one that the page came from.
  #trusts = true;
  // What came, and waits for the text to be ready for it.
  #held = [];
  #timer;
  #isClosed = false;

  /** `told` is told of `came(line)`, of `ended(words)`, which says whether to connect at once, and of `waits(many)` while
   * lines wait; `isBusy()` says whether they are to, and `settles()` ends that. */
  constructor(told) {
    this.#told = told;
  }

  /** Connects; a second time as whoever has the key. */
  open() {
    const socket = new WebSocket(`ws://${location.host}/socket${location.search}`);
    const lines = new Lines();
    socket.binaryType = "arraybuffer";
    socket.onopen = () => this.#greet();
    socket.onmessage = ({ data }) => {
      if (socket !== this.#socket) return;
      this.#held.push(...(typeof data === "string" ? [JSON.parse(data)] : lines.of(new Uint8Array(data))));
      this.#pass();
    };
    socket.onclose = ({ code, reason }) => { if (socket === this.#socket) this.#ended(code, reason); };
    this.#socket = socket;
    this.#trusts = !this.#key;
    this.#held = [];
  }

  /** Sends a line. */
  send(line) {
    if (this.#socket.readyState !== WebSocket.OPEN) return;
    for (const piece of pieces(line, PIECE)) this.#socket.send(piece);
  }

  /** End the way, after what was sent. */
  close() {
    this.#isClosed = true;
    this.#socket.close();
  }

  #say(words) {
    this.#socket.send(new TextEncoder().encode(words));
  }

  #greet() {
    this.#nonce = hex(crypto.getRandomValues(new Uint8Array(NONCE_BYTES)));
    this.#say(this.#key ? `again ${this.#nonce}` : sessionStorage.getItem("secret") ?? "");
  }

  /** Hands on what came, as soon as the text is ready for it. */
  #pass() {
    clearTimeout(this.#timer);
    while (this.#held.length && !this.#told.isBusy()) this.#came(this.#held.shift());
    if (!this.#held.length) return;
    this.#told.waits(this.#held.length);
    this.#timer = setTimeout(() => this.#pass(), HELD_MS);
  }

  #came(line) {
    if (line.notice === "known") {
      this.#known(line);
    } else if (!this.#trusts) {
      this.#socket.close();
    } else {
      if (line.notice === "welcome") this.#keep(line);
      this.#told.came(line);
    }
  }

  #keep({ key, secret }) {
    this.#key = key;
    sessionStorage.setItem("secret", secret);
  }

  /** Shows the key to a server that has shown it. */
  async #known({ nonce, proof: shown }) {
    const socket = this.#socket;
    const [its, own] = await Promise.all(["server", "page"].map((who) => proof(this.#key, who, this.#nonce, nonce)));
    if (socket !== this.#socket || socket.readyState !== WebSocket.OPEN) return;
    if (shown !== its) {
      socket.close();
      return;
    }
    this.#trusts = true;
    this.#say(own);
  }

  #ended(code, reason) {
    clearTimeout(this.#timer);
    if (this.#isClosed) return;
    this.#told.settles();
    // What was answered was done.
    while (this.#held.length) this.#came(this.#held.shift());
    const isWaitedFor = Boolean(this.#key) && code !== WRONG_SECRET;
    const isAtOnce = this.#told.ended(wordsOf(code, reason));
    if (isWaitedFor) setTimeout(() => this.open(), isAtOnce ? 0 : AGAIN_MS);
  }
}
