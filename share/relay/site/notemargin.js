// The margin of a note that is open: what its insertions that count say, kept up as they come, and which threads are about characters that
// are here. Nothing of it is read before somebody asks.
import { MOST_ANCHORED, holds, lacking } from "./anchor.js";
import { join } from "./bytes.js";
import { beginOf } from "./lines.js";
import { Marginal } from "./marginal.js";
import { LEAST_OF_A_LINE, MARGIN, MOST_SELECTED, idOf, readLine, sumOf } from "./record.js";
import { TEXT, readable } from "./shared.js";
import { nowhere, placed } from "./spots.js";

/** @typedef {import("./anchor.js").Knows} Knows */
/** @typedef {import("./sayings.js").Line} Line */
/** @typedef {import("./spots.js").AboutText} AboutText */
/** @typedef {import("./value.js").Names} Names */
/** All that is said in a note, and how many messages of each number count in its margin and in its text.
 * @typedef {{ sayings: import("./sayings.js").Sayings, margin: Map<number, number>, text: Map<number, number> }} Counting */
/** @typedef {import("./record.js").Name} Name */
/** What a thread is about; whether that is here; what was selected then, and what is suggested instead, readable; a character for want of
 * which it isn't; and whether the thread is open by what is said of it.
 * @typedef {{ about: AboutText, isHere: boolean, then: string, put: string, lacks: Name | null, isOpen: boolean }} Held */

// The most threads that are shown, and the most bytes of a character; and for how many characters' places it takes as long to look as for a
// thread's.
const [MOST_THREADS, MOST_OF_A_CHARACTER, OF_A_THREAD] = [100_000, 4, 30];

export class NoteMargin {
  said = new Marginal();
  // Rises as something that is said may be otherwise.
  times = 0;
  #counting;
  /** @type {Counting["sayings"] | null} */
  #of = null;
  // Up to which message of each number the margin was read; and of those that threads are about how much of their text there was.
  /** @type {Map<number, { line: Line, times: number, seq: number }>} */
  #read = new Map();
  /** @type {Map<number, { line: Line | null, times: number, front: number }>} */
  #about = new Map();
  /** @type {Map<string, Held>} */
  #held = new Map();
  #going = Promise.resolve();

  /** @param {() => Counting | null} counting */
  constructor(counting) {
    this.#counting = counting;
  }

  /** Takes over all that came. Where that fails all is looked at anew the next time. */
  look() {
    return (this.#going = this.#going.catch(() => { this.#of = null; }).then(() => this.#look()));
  }

  /** What the note has of its text now. */
  knows() {
    const now = this.#counting();
    return now && knowsOf(now);
  }

  /** What characters say that are here, shown or not, up to as many as something is said of.
   * @param {Names[]} names */
  async shown(names) {
    const knows = this.knows();
    return knows ? [...await shownOf(names, knows)].slice(0, MOST_ANCHORED).join("") : "";
  }

  /** Each thread, how it stands to a text, what is told of what it is about, and whether somebody is still to do something about it.
   * @param {import("./shared.js").SharedText} text */
  stood(text) {
    if (!this.#held.size) return [];
    const isFew = this.#held.size * OF_A_THREAD < text.length;
    const whereabouts = isFew ? { of: (/** @type {Names} */ names) => text.extentOf(names) } : text.whereabouts();
    return [...this.#held].map(([id, { about, isHere, then, put, isOpen }]) => {
      const spot = isHere ? placed(about, whereabouts, (name) => text.find(name)?.pos ?? null) : nowhere();
      return { id, then, put, spot, isOpen: isOpen && !spot.isAccepted };
    });
  }

  async #look() {
    const now = this.#counting();
    if (!now) return;
    if (now.sayings !== this.#of || await this.#isOtherwise(now)) this.#forget();
    this.#of = now.sayings;
    const changed = await this.#readOn(now);
    const knows = knowsOf(now);
    const due = new Set(changed);
    const isLess = await this.#hasLess(now);
    for (const [id, { lacks }] of this.#held) if (isLess || (lacks && await knows.data([...lacks, 1]))) due.add(id);
    for (const id of due) await this.#hold(id, knows, isLess);
    for (const id of changed) this.#opens(id);
    for (const site of this.#about.keys()) await this.#notes(site, now);
    if (due.size) this.times += 1;
  }

  /** Begins anew, with nothing. */
  #forget() {
    [this.said, this.#read, this.#about, this.#held] = [new Marginal(), new Map(), new Map(), new Map()];
    this.times += 1;
  }

  /** Whether what was read doesn't count any more.
   * @param {Counting} now */
  async #isOtherwise({ sayings, margin }) {
    for (const [site, { line, times, seq }] of this.#read) {
      const front = margin.get(site) ?? 0;
      if (seq && (await sayings.line(MARGIN, site, front) !== line || line.times !== times || front < seq)) return true;
    }
    return false;
  }

  /** Reads what came; the threads of which something may be otherwise then.
   * @param {Counting} now */
  async #readOn({ sayings, margin }) {
    /** @type {Set<string>} */
    const changed = new Set();
    for (const [site, front] of margin) {
      const line = await sayings.line(MARGIN, site, front);
      if (!line) continue;
      const [after, seq] = [this.#read.get(site)?.seq ?? 0, Math.min(front, line.reached)];
      this.#read.set(site, { line, times: line.times, seq });
      const some = line.counting(after, seq).filter(({ data }) => data.length >= LEAST_OF_A_LINE);
      const sums = await Promise.all(some.map(({ data }) => sumOf(data)));
      some.forEach(({ data, at, stamp }, index) => {
        const record = readLine(data, sums[index]);
        if (record) for (const id of this.said.add({ id: idOf(site, at), site, stamp, record })) changed.add(id);
      });
    }
    return changed;
  }

  /** Whether something of what threads are about doesn't count any more.
   * @param {Counting} now */
  async #hasLess({ sayings, text }) {
    for (const [site, { line, times, front }] of this.#about) {
      const many = text.get(site) ?? 0;
      if (line && (await sayings.line(TEXT, site, many) !== line || line.times !== times || many < front)) return true;
    }
    return false;
  }

  /** @param {number} site @param {Counting} now */
  async #notes(site, { sayings, text }) {
    const front = text.get(site) ?? 0;
    const line = await sayings.line(TEXT, site, front);
    this.#about.set(site, { line, times: line?.times ?? 0, front });
  }

  /** Looks whether that is here which a thread is about.
   * @param {string} id @param {Knows} knows @param {boolean} isLess */
  async #hold(id, knows, isLess) {
    const [before, about] = [this.#held.get(id), this.said.about(id)];
    if (!before && this.#held.size >= MOST_THREADS) return;
    if (before && !before.lacks && !isLess && JSON.stringify(before.about) === JSON.stringify(about)) return;
    const { anchor, new: put } = about;
    const isOpen = before?.isOpen ?? true;
    for (const [site] of [...anchor.at, ...put, ...(anchor.behind ? [anchor.behind] : [])]) {
      if (site && !this.#about.has(site)) this.#about.set(site, { line: null, times: 0, front: 0 });
    }
    const isHere = await holds(anchor, put, Number(id.split(":")[0]), knows);
    const [then, made] = isHere ? [await shownOf(firstOf(anchor.at), knows), await shownOf(put, knows)] : ["", ""];
    const lacks = isHere ? null : await lacking(anchor, put, knows);
    this.#held.set(id, { about, isHere, then: beginOf(then), put: made, lacks, isOpen });
  }

  /** @param {string} id */
  #opens(id) {
    const held = this.#held.get(id);
    if (held) held.isOpen = this.said.thread(id).state === "open";
  }
}

/** @param {Counting} now @returns {Knows} */
function knowsOf({ sayings, text }) {
  const front = (/** @type {number} */ site) => text.get(site) ?? 0;
  return {
    inserter: async ([site, at]) => {
      const line = await sayings.line(TEXT, site, front(site));
      return line && sayings.inserter(line, at, front(site));
    },
    data: async ([site, at, length]) => (await sayings.line(TEXT, site, front(site)))?.data(at, length, front(site)) ?? null,
    isOfBase: (site) => sayings.isCopied(site),
  };
}

/** The first of some characters, as many as what is told of a passage may take.
 * @param {Names[]} names @returns {Names[]} */
function firstOf(names) {
  let left = MOST_SELECTED * MOST_OF_A_CHARACTER;
  return names.flatMap(([site, at, length]) => {
    const many = Math.min(length, left);
    left -= many;
    return many > 0 ? [/** @type {Names} */ ([site, at, many])] : [];
  });
}

/** @param {Names[]} names @param {Knows} knows */
async function shownOf(names, knows) {
  const parts = [];
  for (const one of names) parts.push(await knows.data(one) ?? []);
  return readable(join(...parts));
}
