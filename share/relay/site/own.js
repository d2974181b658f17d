// This tab's own entries. They stand under a number that no other tab writes under meanwhile, so that a number never has two histories. An
// edit becomes an entry, which is sealed, signed and on the disk before the edit is answered. Until then a copy of the saying is in the
// browser's storage.
import { Trouble, hex } from "./bytes.js";
import { authorsOf, heldOf, ownOf } from "./held.js";
import { dropUnkept, keepSaid, keepUnkept, sitesUnkept, writeUnkept } from "./unkept.js";

/** @typedef {import("./value.js").Saying} Saying */
/** @typedef {import("./held.js").Held} Held */
/** A word of an author: messages of a number, up to one, were typed again.
 * @typedef {{ author: string, site: number, text: number, before: Uint8Array }} Word */
/** A saying that isn't on the disk yet: its number, the last of the editor's edits in it, its words, and its name in the browser's storage,
 * which is "" if it isn't there.
 * @typedef {{ saying: Saying, number: Held, edits: number, words: Word[], beside: string }} Said */

// The most entries that are sealed and kept at once.
const AT_ONCE = 100;

export class Own {
  // Why something wasn't kept, in words, so that nothing may be said that builds on it.
  failure = "";
  #store;
  #keys;
  #id;
  #told;
  /** @type {Held | null} */
  #number = null;
  #ends = new AbortController();
  /** @type {Said[]} */
  #queue = [];
  #isBusy = false;
  #going = Promise.resolve();
  /** @type {Set<number>} */
  #sites = new Set();
  /** @type {Map<string, import("./keys.js").Author>} */
  #authors = new Map();

  /** @param {import("./store.js").Store} store @param {import("./keys.js").NoteKeys} keys @param {string} id
   * @param {{ kept: (edits: number, many: number) => void, failed: () => void, recovered: () => void, says: (words: string) => void }} told
   * `kept` is called with the number of the last edit on the disk and the number of entries, `recovered` after sayings of a closed tab were
   * kept, and `says` with words for the user */
  constructor(store, keys, id, told) {
    this.#store = store;
    this.#keys = keys;
    this.#id = id;
    this.#told = told;
  }

  get number() {
    return this.#number;
  }

  /** Whether a number is, or was, this browser's.
   * @param {number} site */
  isOwn(site) {
    return this.#sites.has(site);
  }

  /** Whether this browser's user types, or typed, as an author.
   * @param {string} author */
  isOwnAuthor(author) {
    return this.#authors.has(author);
  }

  /** Write under this number no more. Its sayings are kept under it all the same, with its claim. They count if this claim has the lower
   * rank; else everybody is shown that they are left out. Under the next number they would take the places of later sayings. */
  async leave() {
    const site = this.#number?.site;
    this.#number = null;
    /** @template {{ site: number }} Of @param {Of} one */
    const left = (one) => (one.site === site ? { ...one, isLeft: true } : one);
    // If that can't be kept, the number is left again as the note is opened the next time.
    await this.#store.keep(this.#id, [], ({ author, numbers = [] }) => (
      { author: author && left(author), numbers: numbers.map(left) })).catch(() => {});
  }

  /** The number of entries that aren't on the disk yet. */
  get waiting() {
    return this.#queue.length;
  }

  /** Take a number that no other tab has. Return it, 0 if there is none.
   * @param {Set<number>} taken those that somebody has */
  async take(taken) {
    const note = await this.#store.note(this.#id);
    if (this.#number || !note) return this.#number?.site ?? 0;
    const own = ownOf(note);
    this.#sites = new Set(own.map(({ site }) => site));
    this.#authors = await authorsOf(own);
    await this.#keepLeft(own, { ifAvailable: true });
    const site = await this.#takeOf(note, taken);
    // A tab that was just closed may still have its number.
    this.#keepLeft(own.filter((one) => one.site !== site), { signal: this.#ends.signal }).catch((why) => {
      if (!this.#ends.signal.aborted) reportError(why);
    });
    return site;
  }

  /** @param {import("./store.js").Note} note @param {Set<number>} taken */
  async #takeOf(note, taken) {
    const site = note.author?.site && !note.author.isLeft ? await this.#takeOne(note.author) : 0;
    if (site) return site;
    for (const one of note.numbers ?? []) {
      const isUsable = !one.isLeft && (one.isClaimed || !taken.has(one.site));
      if (isUsable && await this.#takeOne(one)) return one.site;
    }
    return this.#takeSpare(taken);
  }

  /** Seal and keep a saying, after the earlier ones.
   * @param {Saying} saying @param {number} edits the last of the editor's edits in it
   * @param {Word[]} words are kept together with it, or not at all */
  say(saying, edits, words = []) {
    if (this.failure) return;
    const number = this.#number;
    if (number?.site !== saying.site) throw new Error(`This is said under ${saying.site}, and this tab has ${number?.site ?? "no number"}.`);
    // A saying builds on the one before it. If that isn't in the browser's storage, this one isn't either.
    const isAfterGap = this.#queue.length > 0 && !this.#queue[this.#queue.length - 1].beside;
    const beside = isAfterGap ? "" : writeUnkept(this.#id, { saying, words });
    this.#queue.push({ saying, number, edits, words, beside });
    if (!this.#isBusy) this.#going = this.#go();
  }

  /** Return a promise that ends once all sayings are kept, or can't be. */
  settled() {
    return this.#going;
  }

  /** Let other tabs have the numbers, once all sayings are kept: the next tab builds on them. */
  close() {
    void this.settled().then(() => this.#ends.abort());
  }

  /** @param {Set<number>} taken */
  async #takeSpare(taken) {
    /** @type {import("./store.js").Searched | null} */
    let found = null;
    await this.#store.keep(this.#id, [], ({ spare, numbers = [] }) => {
      found = spare && !taken.has(spare.site) ? spare : null;
      return found ? { spare: null, numbers: [...numbers, found] } : {};
    });
    const one = /** @type {import("./store.js").Searched | null} */ (found);
    return one ? this.#takeOne(one) : 0;
  }

  /** Take a number, if no other tab has it. Return it, or 0. If that fails, other tabs may have it again.
   * @param {import("./held.js").Stored} one */
  async #takeOne(one) {
    const lets = await this.#holds(one.site);
    try {
      return lets ? await this.#has(one) : 0;
    } catch (why) {
      lets?.();
      throw why;
    }
  }

  /** @param {import("./held.js").Stored} one whose lock is held */
  async #has(one) {
    const isRecovered = await this.#keepsUnkept(one.site);
    const number = await heldOf(this.#keys, one);
    // The claim was kept with the recovered edits.
    if (isRecovered) number.claims = null;
    const { author, site } = number;
    this.#number = number;
    this.#sites.add(site);
    this.#authors.set(hex(author.name), author);
    return site;
  }

  /** @param {number} site whose lock is held */
  async #keepsUnkept(site) {
    const isRecovered = await keepUnkept(this.#store, this.#keys, this.#id, site, this.#told.says);
    if (isRecovered) this.#told.recovered();
    return isRecovered;
  }

  /** Keep the unkept sayings of tabs that have ended.
   * @param {import("./held.js").Stored[]} own
   * @param {LockOptions} how says whether to wait for a tab that has such a number: that tab keeps its sayings itself, unless it ends */
  async #keepLeft(own, how) {
    for (const site of sitesUnkept(this.#id)) {
      if (own.some((one) => one.site === site)) {
        await navigator.locks.request(this.#lockOf(site), how, async (lock) => {
          if (lock) await this.#keepsUnkept(site);
        });
      }
    }
  }

  /** @param {number} site */
  #lockOf(site) {
    return `vialshoal ${this.#id} ${site}`;
  }

  /** Have this tab be the only one that types under a number. Return a function that lets others have it; null if another tab has it.
   * @param {number} site @returns {Promise<(() => void) | null>} */
  #holds(site) {
    return new Promise((done) => {
      void navigator.locks.request(this.#lockOf(site), { ifAvailable: true }, (lock) => {
        if (!lock) {
          done(null);
          return undefined;
        }
        return new Promise((ended) => {
          this.#ends.signal.addEventListener("abort", ended);
          done(() => ended(undefined));
        });
      });
    });
  }

  async #go() {
    this.#isBusy = true;
    try {
      while (this.#queue.length) {
        const some = this.#first();
        await keepSaid(this.#store, this.#keys, this.#id, some[0].number, some, this.#authors);
        this.#queue.splice(0, some.length);
        dropUnkept(some.map(({ beside }) => beside));
        this.#told.kept(some[some.length - 1].edits, some.length);
      }
    } catch (/** @type {any} */ why) {
      if (!(why instanceof Trouble)) reportError(why);
      // The edits are taken out of the text, and the editor keeps their words.
      dropUnkept(this.#queue.map(({ beside }) => beside));
      [this.#queue, this.failure] = [[], why.message];
      this.#told.failed();
    } finally {
      this.#isBusy = false;
    }
  }

  /** Return the first sayings, all of one number, that are kept together. */
  #first() {
    const some = this.#queue.slice(0, AT_ONCE);
    const end = some.findIndex(({ number }) => number !== some[0].number);
    return end < 0 ? some : some.slice(0, end);
  }
}
