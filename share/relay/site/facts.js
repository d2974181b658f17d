// What is known of a note without its text: who founded it, whose the numbers are, how much there is.
import { Base } from "./base.js";
import { hex, numberAt } from "./bytes.js";
import { KIND, counterOf, headOf, opened, openedKept } from "./entry.js";
import { derived, digesting } from "./keys.js";
import { clean } from "./presence.js";
import { isBelow, rankOf } from "./rank.js";

const [SECRET_BYTES, FOUNDER_AT] = [32, 64];

/** A number that somebody has, and how many messages stand under it.
 * @typedef {{ site: number, author: string, messages: number, isFounder: boolean }} Numbered */

export class Facts {
  entries = 0;
  bytes = 0;
  /** Who said that the note goes on under another link.
   * @type {string[]} */
  renewedBy = [];
  /** @type {{ author: string, site: number } | null} */
  founder = null;
  /** What was copied. */
  base = new Base();
  #keys;
  /** @type {Map<number, { author: string, rank: Uint8Array }>} */
  #holders = new Map();
  /** The greatest seqs of each text, by author and number.
   * @type {Map<string, Map<number, number>>} */
  #lasts = new Map();

  /** @param {import("./keys.js").NoteKeys} keys */
  constructor(keys) {
    this.#keys = keys;
  }

  /** Whether it began as a copy. */
  get isCopy() {
    return this.base.isSome;
  }

  /** Takes over an entry that was found right.
   * @param {Uint8Array} raw */
  async add(raw) {
    const head = headOf(raw);
    const { kind, site, text, first, count } = head;
    const author = hex(head.author);
    this.entries += 1;
    this.bytes += raw.length;
    if (kind === KIND.claim) {
      this.#claimed(site, author, await rankOf(this.#keys.identity, head.author, counterOf(head)));
    } else if (kind === KIND.messages) {
      const lasts = this.#lasts.get(`${author} ${site}`) ?? new Map();
      this.#lasts.set(`${author} ${site}`, lasts.set(text, Math.max(lasts.get(text) ?? 0, first + count - 1)));
    } else if (kind === KIND.base) {
      this.base.add(await openedKept(this.#keys, raw));
    } else if (kind === KIND.opening) {
      const { body } = await opened(this.#keys, raw);
      this.base.begin(body.slice(SECRET_BYTES, FOUNDER_AT), await digesting(await derived(body.slice(0, SECRET_BYTES), "base")));
      this.founder = { author: hex(body.subarray(FOUNDER_AT, FOUNDER_AT + 32)), site: numberAt(body, FOUNDER_AT + 32, 2) };
    } else if (kind === KIND.renewed) {
      this.#renewed((await opened(this.#keys, raw)).body);
    }
  }

  /** Whose the numbers are, the lowest first. */
  numbers() {
    /** @type {Numbered[]} */
    const found = [...this.#authors()].filter(([, author]) => author).map(([site, author]) => (
      { site, author, messages: this.#messages(author, site), isFounder: site === this.founder?.site }));
    return found.sort((one, other) => one.site - other.site);
  }

  /** The numbers that somebody has, or that were copied. */
  taken() {
    return new Set([...this.#holders.keys(), ...this.base.sites, ...(this.founder?.site ? [this.founder.site] : [])]);
  }

  /** By whom may be typed under each number that is taken; by nobody where that was copied.
   * @returns {Map<number, string>} */
  #authors() {
    const found = new Map([...this.#holders].map(([site, { author }]) => [site, author]));
    if (this.founder?.site) found.set(this.founder.site, this.founder.author);
    for (const site of this.base.sites) found.set(site, "");
    return found;
  }

  /** @param {string} author @param {number} site */
  #messages(author, site) {
    return [...this.#lasts.get(`${author} ${site}`)?.values() ?? []].reduce((sum, last) => sum + last, 0);
  }

  /** @param {number} site @param {string} author @param {Uint8Array} rank */
  #claimed(site, author, rank) {
    const held = this.#holders.get(site);
    if (!held || isBelow(rank, held.rank)) this.#holders.set(site, { author, rank });
  }

  /** @param {Uint8Array} body */
  #renewed(body) {
    const name = clean(new TextDecoder().decode(body)) || "somebody";
    if (!this.renewedBy.includes(name)) this.renewedBy.push(name);
  }
}
