// Hands a note's entries, as this browser keeps them, to the note's value. They were found right as they came.
import { join, numberAt } from "./bytes.js";
import { RefusedByCore } from "./core.js";
import { KIND, counterOf, openedKept } from "./entry.js";
import { Facts } from "./facts.js";
import { derived, digesting } from "./keys.js";
import { rankOf } from "./rank.js";
import { Sayings } from "./sayings.js";
import { Value } from "./value.js";

/** @typedef {import("./entry.js").Entry} Entry */
/** An entry, and of a claim its rank.
 * @typedef {{ one: Entry, rank: Uint8Array | null }} Came */

const [AT_ONCE, HASH_BYTES, ROOT_AT, FOUNDER_AT, NUMBER_AT, MALFORMED] = [500, 32, 32, 64, 96, 1];
// How long entries are handed on at once, where another text is shown meanwhile.
const SLICE_MS = 50;
const LACKS = "The relay lacks some of what this note begins with, so nothing of it counts yet. Whoever has that brings it by opening the note.";
const OUT_OF_ORDER = "What was copied into this note is out of order, so nothing of it counts. Ask whoever renewed it to do that again.";
const NOTHING = new Uint8Array(HASH_BYTES);

export class Feed {
  facts;
  /** @type {Value | null} */
  value = null;
  /** Which messages count that were handed on.
   * @type {Sayings | null} */
  sayings = null;
  #core;
  #store;
  #keys;
  #id;
  // Up to which of the store's entries they were handed on; those that wait for what the note begins with, and that as far as it is here.
  #last = 0;
  /** @type {Came[]} */
  #waiting = [];
  /** @type {Entry | null} */
  #opening = null;
  // The value that it begins with, if its base is in order.
  /** @type {Value | null} */
  #begun = null;

  /** @param {import("./core.js").Core} core @param {import("./store.js").Store} store @param {import("./keys.js").NoteKeys} keys
   * @param {string} id @param {number} site under which is typed here, or 0 */
  constructor(core, store, keys, id, site) {
    this.#core = core;
    this.#store = store;
    this.#keys = keys;
    this.#id = id;
    this.site = site;
    this.facts = new Facts(keys);
  }

  /** Why nothing counts of what was read, in words; none where something does. */
  get why() {
    if (this.value) return "";
    return this.facts.base.isInOrder ? LACKS : OUT_OF_ORDER;
  }

  /** Reads what was kept since; whether that was something. It is handed on by `hand`.
   * @param {(done: number, of: number) => void} reads is told how far it is */
  async next(reads) {
    const { entries, last } = await this.#store.entriesAfter(this.#id, this.#last);
    for (let begin = 0; begin < entries.length; begin += AT_ONCE) {
      reads(begin, entries.length);
      const some = entries.slice(begin, begin + AT_ONCE);
      const came = await Promise.all(some.map(({ raw }) => this.#opened(raw)));
      for (const { raw } of some) await this.facts.add(raw);
      for (const { one } of came) if (one.kind === KIND.opening) this.#opening = one;
      this.#waiting.push(...came);
    }
    this.#last = last;
    if (!this.value && this.#opening && this.facts.base.isInOrder) await this.#begins(this.#opening);
    return entries.length > 0;
  }

  /** Hands on to the value what was read, or until it is time; whether that was something. What it has no memory for is handed on once more,
   * with all after it.
   * @param {number} [end] */
  hand(end = Infinity) {
    const { value, sayings } = this;
    if (!value || !sayings) return false;
    let many = 0;
    try {
      for (const { one, rank } of this.#waiting) {
        if (many && performance.now() > end) break;
        if (rank) {
          value.claim(one.author, one.site, rank);
          sayings.claim(one.author, one.site, rank);
        } else if (one.kind === KIND.messages && value.add(one)) {
          sayings.add(one);
        } else if (one.kind === KIND.anew) {
          sayings.anew(one);
        } else if (one.kind === KIND.copies) {
          sayings.copies.add(one);
        }
        many += 1;
      }
    } finally {
      this.#waiting.splice(0, many);
    }
    return many > 0;
  }

  /** Hands on to the value what was read, in slices, between which the page does what else there is to do.
   * @param {(done: number, of: number) => void} reads is told how far it is */
  async handInSlices(reads) {
    const all = this.#waiting.length;
    while (this.value && this.hand(performance.now() + SLICE_MS)) {
      this.value.update();
      reads(all - this.#waiting.length, all);
      await nextTask();
    }
  }

  /** Has own edits of texts become entries, by who has a number, which may be to be claimed.
   * @param {number[]} texts @param {import("./own.js").Held} number */
  say(texts, { author: { name }, site, claims }) {
    const { value, sayings } = this;
    if (!value || !sayings) return [];
    if (claims) {
      value.claim(name, site, claims.rank);
      sayings.claim(name, site, claims.rank);
    }
    const found = value.say(texts, name);
    for (const one of found) sayings.add(one);
    return found;
  }

  /** Lets the value go. */
  close() {
    this.value?.close();
    this.value = null;
  }

  /** @param {Uint8Array} raw @returns {Promise<Came>} */
  async #opened(raw) {
    const one = await openedKept(this.#keys, raw);
    return { one, rank: one.kind === KIND.claim ? await rankOf(this.#keys.identity, one.author, counterOf(one)) : null };
  }

  /** The note begins, once all of its base is here, and that is in order.
   * @param {Entry} opening */
  async #begins({ body }) {
    const [{ base }, hash] = [this.facts, await derived(this.#keys.key, "hash")];
    const begins = { founder: body.slice(FOUNDER_AT, NUMBER_AT), number: numberAt(body, NUMBER_AT, 2), root: body.slice(ROOT_AT, FOUNDER_AT),
      baseKey: await derived(body.slice(0, HASH_BYTES), "base") };
    const isIt = (/** @type {Entry[]} */ entries) => {
      this.#begun = this.#valueOf(hash, { ...begins, base: join(...entries.flatMap((one) => [sized(one.body), one.body])) });
      return this.#begun !== null;
    };
    const spelling = new Value(this.#core, hash, { founder: NOTHING, number: 0, root: NOTHING, base: join(), baseKey: NOTHING }, 0);
    await base.look(isIt, (one) => isRight(one, spelling));
    spelling.close();
    if (base.entries && !this.#begun) isIt(base.entries);
    const { entries, isInOrder } = base;
    if (!isInOrder) this.#begun?.close();
    else if (entries && this.#begun) {
      const sayings = new Sayings(await digesting(hash), { author: begins.founder, site: begins.number }, entries);
      [this.value, this.sayings] = [this.#begun, sayings];
    }
  }

  /** A value that begins so, if that leads to its root.
   * @param {Uint8Array} hash @param {import("./value.js").Beginning} beginning */
  #valueOf(hash, beginning) {
    try {
      return new Value(this.#core, hash, beginning, this.site);
    } catch (why) {
      if (!(why instanceof RefusedByCore) || why.number !== MALFORMED) throw why;
      return null;
    }
  }
}

/** Ends after what else the page has to do by now; a timer would make a tab in the background wait. */
function nextTask() {
  const { port1, port2 } = new MessageChannel();
  return new Promise((done) => {
    port1.onmessage = done;
    port2.postMessage(null);
  }).finally(() => port1.close());
}

/** Whether an entry of the base has a chunk as a value takes them of messages, which begin after nothing.
 * @param {Entry} one @param {Value} value */
const isRight = (one, value) => value.add({ ...one, before: one.first === 1 ? NOTHING : one.author, body: join([0, 0], one.body) });

/** How long bytes are, the low byte first.
 * @param {Uint8Array} bytes */
const sized = ({ length }) => [length % 256, length >> 8];
