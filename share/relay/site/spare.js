// A number under which this browser's user can write at once: searched for ahead, in a worker, and kept on the disk until it is needed. It is
// claimed then, and not before: what nobody writes under is no claim of a log's.
import { claimFor } from "./claim.js";
import { GREATEST_SITE } from "./rank.js";
import { authorOf } from "./keys.js";
import { Trouble, random } from "./bytes.js";

const SECRET_BYTES = 32;
const NONE_LEFT = "All numbers of this note are claimed. bin/note renew copies it.";

export class Spare {
  #store;
  #keys;
  #id;
  #taken;
  #ends = new AbortController();
  /** @type {Promise<unknown> | null} */
  #search = null;

  /** @param {import("./store.js").Store} store @param {import("./keys.js").NoteKeys} keys @param {string} id
   * @param {() => Promise<Set<number>>} taken which numbers somebody has */
  constructor(store, keys, id, taken) {
    this.#store = store;
    this.#keys = keys;
    this.#id = id;
    this.#taken = taken;
  }

  /** Whether one is searched for now. */
  get isSearching() {
    return this.#search !== null;
  }

  /** Has one be there, all of whose log was read; where somebody has claimed it meanwhile another one is searched for.
   * @param {number} [zeroBits] */
  async keep(zeroBits) {
    if (this.#ends.signal.aborted) return;
    this.#search ??= this.#keep(zeroBits).finally(() => {
      this.#search = null;
    });
    try {
      await this.#search;
    } catch (why) {
      // Where it was broken off nothing is lost.
      if (!this.#ends.signal.aborted) throw why;
    }
  }

  close() {
    this.#ends.abort();
  }

  /** @param {number} [zeroBits] */
  async #keep(zeroBits) {
    for (let taken = await this.#taken(); !await this.#isThere(taken); taken = await this.#taken()) {
      if (taken.size >= GREATEST_SITE) throw new Trouble(NONE_LEFT);
      const author = await authorOf(random(SECRET_BYTES));
      const { counter, site } = await claimFor(this.#keys.identity, author.name, taken, this.#ends.signal, zeroBits);
      await this.#store.keep(this.#id, [], { spare: { secret: author.secret, counter, site } });
    }
  }

  /** @param {Set<number>} taken */
  async #isThere(taken) {
    const spare = (await this.#store.note(this.#id))?.spare;
    return Boolean(spare && !taken.has(spare.site));
  }
}
