// What a note's margin says, as share/review/margin.py has it: one function of the insertions there that count, as a set, whatever the
// order in which they come. A thread is put together where somebody asks for it, of what answers it alone.
import { MOST_OF_A_BODY, begins } from "./record.js";

/** @typedef {import("./record.js").MarginRecord} MarginRecord */
/** @typedef {import("./record.js").Anchor} Anchor */
/** @typedef {import("./record.js").Ref} Ref */
/** @typedef {import("./value.js").Names} Names */
/** A record that is in the margin, by its first character; they are ordered by the stamp of the insertion, then its site.
 * @typedef {{ id: string, site: number, stamp: number, record: MarginRecord }} Entered */
/** What somebody wrote. There is no body where it was taken back.
 * @typedef {{ id: string, site: number, by: string, time: number, body: string | null, isRevised: boolean }} Remark */
/** A remark or a suggestion, with its replies. There is no state where it was taken back.
 * @typedef {{ first: Remark, kind: string, state: string | null, anchor: Anchor, new: Names[], replies: Remark[] }} Thread */
/** The records of one sum, and those that name one of them, by the one that they say.
 * @typedef {{ ids: Set<string>, least: Entered | null, answers: Map<string, Entered[]> }} Alike */

// Kinds of records that speak of their own author's alone; and how many records are between one and its thread at most.
const [OF_ITS_AUTHOR, MOST_HOPS] = [["taken", "revised", "more"], 3];

/** @param {Entered} one @param {Entered} other */
export const byKey = (one, other) => one.stamp - other.stamp || one.site - other.site;

export class Marginal {
  /** @type {Map<string, Entered>} */
  #byId = new Map();
  /** @type {Map<string, Alike>} */
  #bySum = new Map();
  /** @type {Set<string>} */
  #threads = new Set();

  /** Adds a record; the threads of which something may be otherwise then. What is known already changes nothing.
   * @param {Entered} one @returns {Set<string>} */
  add(one) {
    const { id, record } = one;
    if (this.#byId.has(id)) return new Set();
    this.#byId.set(id, one);
    const alike = this.#alike(record.sum);
    alike.ids.add(id);
    // What named the least one for want of this one names this one.
    const changed = alike.least ? [one, alike.least] : [one];
    if (!alike.least || byKey(one, alike.least) < 0) alike.least = one;
    if (begins(record.kind)) this.#threads.add(id);
    if (record.of) {
      const { answers } = this.#alike(record.of.sum);
      answers.set(record.of.id, [...answers.get(record.of.id) ?? [], one]);
    }
    return new Set(changed.flatMap((each) => this.#threadOf(each) ?? []));
  }

  /** How many threads there are. */
  get many() {
    return this.#threads.size;
  }

  /** The ids of all threads, in the order of their keys. */
  threads() {
    return [...this.#threads].sort((one, other) => byKey(this.#entered(one), this.#entered(other)));
  }

  /** The characters that records suggest, which their authors have typed. */
  suggested() {
    return [...this.#threads].flatMap((id) => this.#entered(id).record.new.filter(([site]) => site === this.#entered(id).site));
  }

  /** The record that begins so, if there is one.
   * @param {string} id */
  of(id) {
    return this.#byId.get(id);
  }

  /** What names a record that is there.
   * @param {string} id @returns {Ref} */
  ref(id) {
    return { id, sum: this.#entered(id).record.sum };
  }

  /** Whether the author of a record took it back.
   * @param {string} id */
  isTaken(id) {
    return this.#answers(this.#entered(id)).some(({ record }) => record.kind === "taken");
  }

  /** Whether somebody says of a thread that it was accepted, and nobody since that this was taken back.
   * @param {string} id */
  isSaidAccepted(id) {
    return this.#byId.has(id) && isAccepted(this.#answers(this.#entered(id)));
  }

  /** The thread that a record begins.
   * @param {string} id @returns {Thread} */
  thread(id) {
    const one = this.#entered(id);
    const [answers, first] = [this.#answers(one), this.#remark(one)];
    return { first, state: first.body === null ? null : lastState(answers), ...this.about(id),
      replies: answers.filter(({ record }) => record.kind === "reply").map((reply) => this.#remark(reply)) };
  }

  /** What a thread is about, and what it suggests instead.
   * @param {string} id @returns {{ kind: string, anchor: Anchor, new: Names[] }} */
  about(id) {
    const one = this.#entered(id);
    const [anchor, parts] = [/** @type {Anchor} */ (one.record.anchor), this.#parts(one)];
    const saw = Object.assign({}, ...parts.map((part) => part.saw).reverse(), anchor.saw);
    const at = [...anchor.at, ...parts.flatMap((part) => part.at)];
    return { kind: one.record.kind, anchor: { ...anchor, at, saw }, new: one.record.new };
  }

  /** @param {string} id @returns {Entered} */
  #entered(id) {
    return /** @type {Entered} */ (this.#byId.get(id));
  }

  /** @param {string} sum @returns {Alike} */
  #alike(sum) {
    const found = this.#bySum.get(sum) ?? { ids: new Set(), least: null, answers: new Map() };
    this.#bySum.set(sum, found);
    return found;
  }

  /** The thread of which a record says something, if it is there.
   * @param {Entered} entered */
  #threadOf(entered) {
    /** @type {Entered | null | undefined} */
    let one = entered;
    for (let hop = 0; hop < MOST_HOPS && one?.record.of; hop += 1) one = this.#meant(one.record.of);
    return one && begins(one.record.kind) ? one.id : undefined;
  }

  /** The record that is named so.
   * @param {Ref} of */
  #meant({ id, sum }) {
    const alike = this.#bySum.get(sum);
    return alike?.ids.has(id) ? this.#byId.get(id) : alike?.least;
  }

  /** What names a record, and may, in the order of keys.
   * @param {Entered} one */
  #answers(one) {
    const { ids, least, answers } = this.#alike(one.record.sum);
    const others = least === one ? [...answers].flatMap(([id, some]) => (ids.has(id) ? [] : some)) : [];
    return [...answers.get(one.id) ?? [], ...others]
      .filter(({ site, record }) => site === one.site || !OF_ITS_AUTHOR.includes(record.kind)).sort(byKey);
  }

  /** What somebody wrote, as it is now.
   * @param {Entered} one @returns {Remark} */
  #remark(one) {
    const revised = this.#answers(one).filter(({ record }) => record.kind === "revised");
    const [isTaken, last] = [this.isTaken(one.id), revised[revised.length - 1]];
    return { id: one.id, site: one.site, by: one.record.by, time: one.record.time, body: isTaken ? null : this.#body(last ?? one),
      isRevised: revised.length > 0 && !isTaken };
  }

  /** @param {Entered} one */
  #body(one) {
    const body = [one.record, ...this.#parts(one)].map((part) => part.body).join("");
    return body.length > MOST_OF_A_BODY ? [...body].slice(0, MOST_OF_A_BODY).join("") : body;
  }

  /** What goes on with a record, from the first part on as far as there are.
   * @param {Entered} one */
  #parts(one) {
    /** @type {MarginRecord[]} */
    const found = [];
    const more = one.record.parts ? this.#answers(one).filter(({ record }) => record.kind === "more") : [];
    while (found.length < one.record.parts) {
      const next = more.find(({ record }) => record.part === found.length + 1);
      if (!next) break;
      found.push(next.record);
    }
    return found;
  }
}

/** Whether the last word about an acceptance is that there is one.
 * @param {Entered[]} answers */
const isAccepted = (answers) => answers.reduce((is, { record }) => record.accepts ?? is, false);

/** What the last one says. What is said of an acceptance counts as long as that isn't taken back; so what others said meanwhile stands.
 * @param {Entered[]} answers @returns {string} */
function lastState(answers) {
  const is = isAccepted(answers);
  return answers.reduce((state, { record }) => (record.state && (is || record.accepts === null) ? record.state : state), "open");
}
