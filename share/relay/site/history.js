// How a note's text came to be: its messages that count, in the order in which their entries came to this browser.
import { Trouble, hex, numberAt } from "./bytes.js";
import { operationsOf } from "./chunk.js";
import { KIND, headOf, openedKept } from "./entry.js";
import { hiddenAtOnce, keyOf } from "./hiding.js";
import { messagesIn, partOf } from "./operation.js";

/** @typedef {import("./chunk.js").Operation} Operation */
/** Messages of a site in a row that go on with one another, what they did, and the number of bytes it was done to.
 * @typedef {{ begin: number, end: number, site: number, typed: number, deleted: number, restored: number, looked: number }} Step */
/** Messages of a site in a row: from which of all on, from which of the site's, and how many.
 * @typedef {{ begin: number, site: number, seq: number, size: number }} Stretch */

const [AT_ONCE, ON_BYTES] = [500, 34];

/** @param {Operation} one */
const sizeOf = ({ data, names }) => data.length || names.reduce((sum, [, , many]) => sum + many, 0);

/** Whether messages are of the same step as those before them: typing that goes on, or more of the same kind.
 * @param {Operation} last @param {Operation} one */
function goesOn(last, one) {
  if (last.site !== one.site || last.kind !== one.kind) return false;
  return last.kind !== "typed" || (one.cause?.[0] === last.site && one.cause[1] === last.at + last.data.length - 1);
}

/** Whether a message deletes what an insertion of its site just before it was put inside.
 * @param {Operation} first @param {Operation} one */
function replaces({ kind, site, cause }, one) {
  return kind === "typed" && one.kind === "deleted" && site === one.site && cause !== null
    && one.names.some(([of, at, many]) => of === cause[0] && at <= cause[1] && cause[1] < at + many);
}

/** Whether a message hides what one of its site had shown.
 * @param {Operation | undefined} before @param {Operation} one */
const hidesAgain = (before, one) => before?.kind === "restored" && before.site === one.site && String(before.names) === String(one.names);

/** Makes steps of messages. */
class Steps {
  /** @type {Step[]} */
  found = [];
  // The last messages, and the first ones of each step.
  /** @type {Operation | null} */
  #last = null;
  /** @type {Operation[]} */
  #firsts = [];

  /** @param {Operation} one @param {number} begin */
  add(one, begin) {
    const [step, first, end] = [this.found[this.found.length - 1], this.#firsts[this.#firsts.length - 1], begin + one.size];
    if (this.#last && goesOn(this.#last, one)) {
      step.end = end;
      step[one.kind] += sizeOf(one);
    } else if (this.#last?.kind === "typed" && this.#last.site === one.site && replaces(first, one)) {
      [step.end, step.deleted] = [end, sizeOf(one)];
      this.#joins(one);
      return;
    } else {
      const did = { typed: 0, deleted: 0, restored: 0, looked: 0, [one.kind]: sizeOf(one) };
      this.found.push({ begin, end, site: one.site, ...did });
      this.#firsts.push(one);
    }
    this.#last = one;
  }

  /** What was typed behind a character that was shown meanwhile is a step with that.
   * @param {Operation} one */
  #joins(one) {
    if (!hidesAgain(this.#firsts[this.#firsts.length - 2], one)) return;
    const [before, step] = this.found.splice(-2);
    this.found.push({ ...step, begin: before.begin, deleted: 0 });
    this.#firsts.splice(-2, 1);
  }
}

export class History {
  length = 0;
  #counting;
  #suggested;
  /** @type {Stretch[]} */
  #stretches = [];
  // All that count, in order; and which of them type what is suggested, and hide it.
  /** @type {Operation[]} */
  #taken = [];
  /** @type {Set<string> | null} */
  #hidden = null;
  // How many of each site's are here, and those that came before one of their site that they follow.
  /** @type {Map<number, number>} */
  #fronts = new Map();
  /** @type {Map<number, Operation[]>} */
  #waiting = new Map();

  /** @param {Map<number, number>} counting how many of each site's messages count @param {import("./value.js").Names[]} suggested */
  constructor(counting, suggested = []) {
    [this.#counting, this.#suggested] = [counting, suggested];
  }

  /** The steps, without what types a replacement that is suggested, and hides it at once. */
  get steps() {
    const [hidden, steps] = [this.#hiding(), new Steps()];
    const sites = new Set([...hidden].map((key) => Number(key.split(" ")[0])));
    let begin = 0;
    for (const run of this.#taken) {
      for (const one of sites.has(run.site) ? messagesIn([run]) : [run]) {
        if (!hidden.has(keyOf(one.site, one.seq))) steps.add(one, begin);
        begin += one.size;
      }
    }
    return steps.found;
  }

  /** How many messages of each site are among the first ones; of what is suggested all, or nothing.
   * @param {number} place @returns {[number, number][]} */
  frontsAt(place) {
    /** @type {Map<number, number>} */
    const fronts = new Map();
    const at = this.#beforeHidden(place);
    for (const { begin, site, seq, size } of this.#stretches) {
      if (begin >= at) break;
      fronts.set(site, seq + Math.min(size, at - begin) - 1);
    }
    return [...fronts];
  }

  /** @param {Operation[]} operations those of an entry */
  add(operations) {
    for (const one of operations) {
      if (one.seq > this.#frontOf(one.site) + 1) this.#waiting.set(one.site, [...this.#waiting.get(one.site) ?? [], one]);
      else this.#take(one);
    }
    for (const { site } of operations.slice(0, 1)) this.#takeWaiting(site);
  }

  #hiding() {
    return (this.#hidden ??= hiddenAtOnce(this.#suggested, this.#taken));
  }

  /** A place; where that is between what types such a replacement and what hides it, the one before both.
   * @param {number} place */
  #beforeHidden(place) {
    const isInside = this.#suggested.length > 0 && place > 0 && place < this.length;
    if (!isInside || this.#keyBefore(place + 1)[0] !== this.#keyBefore(place)[0]) return place;
    let at = place;
    for (; at > 0; at -= 1) {
      const [site, seq, isTyped] = this.#keyBefore(at);
      if (!isTyped || !this.#hiding().has(keyOf(site, seq))) break;
    }
    return at;
  }

  /** The site and the seq of the message before a place, and whether it types.
   * @param {number} place @returns {[number, number, boolean]} */
  #keyBefore(place) {
    let left = place;
    const one = this.#taken.find(({ size }) => (left -= size) <= 0) ?? this.#taken[0];
    return [one.site, one.seq + one.size - 1 + left, one.data.length > 0];
  }

  /** @param {number} site */
  #frontOf(site) {
    return this.#fronts.get(site) ?? 0;
  }

  /** @param {number} site */
  #takeWaiting(site) {
    const ready = (/** @type {Operation} */ { seq }) => seq <= this.#frontOf(site) + 1;
    for (let waiting = this.#waiting.get(site); waiting?.some(ready); waiting = this.#waiting.get(site)) {
      this.#waiting.set(site, waiting.filter((one) => !ready(one)));
      for (const one of waiting.filter(ready)) this.#take(one);
    }
  }

  /** Takes what isn't here yet, and counts.
   * @param {Operation} one */
  #take(one) {
    const front = this.#frontOf(one.site);
    const many = Math.min(one.seq + one.size - 1, this.#counting.get(one.site) ?? 0) - front;
    if (many <= 0) return;
    this.#fronts.set(one.site, front + many);
    this.#lengthen(one.site, front + 1, many);
    this.#taken.push(partOf(one, front + 1 - one.seq, many));
    [this.#hidden, this.length] = [null, this.length + many];
  }

  /** @param {number} site @param {number} seq @param {number} size */
  #lengthen(site, seq, size) {
    const last = this.#stretches[this.#stretches.length - 1];
    if (last?.site === site && last.seq + last.size === seq) last.size += size;
    else this.#stretches.push({ begin: this.length, site, seq, size });
  }
}

/** The messages of an entry; none where it hasn't those that its head says, as somebody may have sealed it.
 * @param {import("./entry.js").Entry} entry */
export function messagesOf({ kind, body, site, first, count }) {
  try {
    const found = operationsOf(kind === KIND.base ? body : body.subarray(2 + ON_BYTES * numberAt(body, 0, 2)));
    return found.every((one) => one.site === site && one.seq >= first && one.seq + one.size <= first + count) ? found : [];
  } catch (why) {
    if (why instanceof Trouble) return [];
    throw why;
  }
}

/** The history of a text of a note, of whose sites each is somebody's, and so many messages of it count.
 * @param {import("./store.js").Kept[]} entries @param {import("./keys.js").NoteKeys} keys @param {number} text
 * @param {Map<number, string>} holders @param {Map<number, number>} counting @param {import("./value.js").Names[]} suggested */
export async function historyOf(entries, keys, text, holders, counting, suggested) {
  const history = new History(counting, suggested);
  const some = entries.map(({ raw }) => ({ raw, head: headOf(raw) })).filter(({ head: { kind, site, author, text: of } }) => (
    of === text && (kind === KIND.base || (kind === KIND.messages && holders.get(site) === hex(author)))));
  for (let begin = 0; begin < some.length; begin += AT_ONCE) {
    const opened = await Promise.all(some.slice(begin, begin + AT_ONCE).map(({ raw }) => openedKept(keys, raw)));
    for (const one of opened) history.add(messagesOf(one));
  }
  return history;
}
