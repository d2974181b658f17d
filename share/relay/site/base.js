// What a note begins with: what was copied into it. Whoever has the link can make entries of a base; those are its base that lead to the
// root, which the opening names.
import { hex, isZeros, join, numberAt } from "./bytes.js";
import { chunkOfFirst } from "./chunk.js";
import { messagesOf } from "./history.js";
import { messagesIn, spelled } from "./operation.js";

/** @typedef {import("./entry.js").Entry} Entry */
/** What names something by a key.
 * @typedef {(data: Uint8Array) => Promise<Uint8Array>} Digest */

const [TEXT_AT, NO_HASH] = [4, "0".repeat(64)];

export class Base {
  /** All of it, each after the one before it; nothing as long as some isn't here.
   * @type {Entry[] | null} */
  entries = null;
  /** Whether all that is here is in its order: by text, number and seq. Else nothing of the note ever counts. */
  isInOrder = true;
  /** The numbers that it has.
   * @type {Set<number>} */
  sites = new Set();
  /** @type {Uint8Array | null} */
  #root = null;
  /** @type {Digest | null} */
  #digest = null;
  // Those that may be of it, and how many of them were hashed; by what names them their messages: the entry, and which of it.
  /** @type {Entry[]} */
  #came = [];
  #hashed = 0;
  /** @type {Map<string, { entry: Entry, index: number }>} */
  #named = new Map();

  /** Whether something was copied, as far as it is known. */
  get isSome() {
    return this.#root !== null && !isZeros(this.#root);
  }

  /** The opening came.
   * @param {Uint8Array} root @param {Digest} digest what names messages of the base */
  begin(root, digest) {
    [this.#root, this.#digest] = [root, digest];
    if (isZeros(root)) this.#has([]);
  }

  /** An entry came.
   * @param {Entry} entry */
  add(entry) {
    if (!this.entries && isAsItsHead(entry)) this.#came.push(entry);
  }

  /** Looks whether all of it is here.
   * @param {(entries: Entry[]) => boolean} isIt whether these are it, each after the one before it: asked once of all as they came, which
   * they mostly are, since what knows that needs no hash of each message here
   * @param {(entry: Entry) => boolean} isRight whether a chunk is spelled as it has to be */
  async look(isIt = () => false, isRight = () => true) {
    const [came, digest] = [this.#came, this.#digest];
    if (this.entries || !digest || !came.length) return;
    if (isIt(came)) {
      this.#has(came);
      return;
    }
    const some = came.slice(this.#hashed).filter(isRight);
    this.#hashed = came.length;
    await Promise.all(some.map((entry) => this.#names(entry, digest)));
    this.#walk();
  }

  /** @param {Entry} entry @param {Digest} digest */
  async #names(entry, digest) {
    let last = entry.before;
    for (const [index, one] of messagesIn(messagesOf(entry)).entries()) {
      last = await digest(join(last, spelled(one, entry.text)));
      this.#named.set(hex(last), { entry, index });
    }
  }

  /** Goes back from the root, message by message, as far as they are here. */
  #walk() {
    /** @type {Entry[]} */
    const found = [];
    let wanted = hex(/** @type {Uint8Array} */ (this.#root));
    while (wanted !== NO_HASH) {
      const last = this.#named.get(wanted);
      if (!last) return;
      found.push(firstOf(last.entry, last.index + 1));
      wanted = hex(last.entry.before);
    }
    this.#has(found.reverse());
  }

  /** @param {Entry[]} entries */
  #has(entries) {
    [this.entries, this.#came] = [entries, []];
    this.#named.clear();
    this.isInOrder = areInOrder(entries);
    if (this.isInOrder) this.sites = new Set(entries.map(({ site }) => site));
  }
}

/** Whether an entry has the messages that its head says, and no others.
 * @param {Entry} entry */
function isAsItsHead(entry) {
  const { text, first, count, body } = entry;
  let next = first;
  for (const { seq, size } of messagesOf(entry)) {
    if (seq !== next) return false;
    next += size;
  }
  return next === first + count && numberAt(body, TEXT_AT, 2) === text;
}

/** The first messages of an entry.
 * @param {Entry} entry @param {number} many @returns {Entry} */
const firstOf = (entry, many) => (many === entry.count ? entry : { ...entry, count: many, body: chunkOfFirst(entry.body, many) });

/** Whether texts rise, and numbers in each, and seqs of each of these from 1 on.
 * @param {Entry[]} entries */
function areInOrder(entries) {
  let [ofText, ofSite, next] = [0, 0, 1];
  for (const { text, site, first, count } of entries) {
    const goesOn = text === ofText && site === ofSite;
    if (first !== (goesOn ? next : 1) || (!goesOn && (text < ofText || (text === ofText && site < ofSite)))) return false;
    [ofText, ofSite, next] = [text, site, first + count];
  }
  return true;
}
