// The value of a note, which the core has: entries come to it in any order, and what counts of them it shows.
import { join, number, numberAt } from "./bytes.js";
import { hasLooks } from "./chunk.js";
import { RefusedByCore } from "./core.js";

/** @typedef {import("./core.js").Core} Core */
/** @typedef {import("./chunk.js").Names} Names */
/** What an entry of messages has in its head and its body.
 * @typedef {{ author: Uint8Array, site: number, text: number, first: number, count: number, before: Uint8Array,
 *   body: Uint8Array }} Saying */
/** @typedef {{ kind: number, beg: number, end: number }} Changed */
/** What a note begins with: its founder's key and number, and a base, with the hash of its last message and the key of its hashes.
 * @typedef {{ founder: Uint8Array, number: number, baseKey: Uint8Array, root: Uint8Array, base: Uint8Array }} Beginning */

const [HASH_BYTES, HEAD_BYTES, ON_BYTES, NAME, NAMES, CHANGE, NO_MESSAGE, MOST_NAMES, ALL_LOOKS] = [32, 76, 34, 8, 12, 24, 108, 1_024, 7];
// Under which nobody types: of who only reads.
const NO_SITE = 65_535;

/** A number as the core reads it.
 * @param {number} value @param {number} size */
const little = (value, size) => number(value, size).reverse();

/** The chunks of a base.
 * @param {Uint8Array} base */
function chunksIn(base) {
  /** @type {Uint8Array[]} */
  const found = [];
  for (let [at, end] = [2, 0]; at <= base.length; at = end + 2) {
    end = at + base[at - 2] + 256 * base[at - 1];
    found.push(base.subarray(at, end));
  }
  return found;
}

export class Value {
  /** Whether some characters may not look plain. To ask which takes a walk over the whole text. */
  mayHaveLooks;
  #core;
  #at;
  // Where a text is handed out as it was.
  #past;

  /** @param {Core} core @param {Uint8Array} hash the key by which messages are hashed @param {Beginning} beginning
   * @param {number} site under which is typed here, or 0 */
  constructor(core, hash, { founder, number: its, baseKey, root, base }, site) {
    this.#core = core;
    this.mayHaveLooks = chunksIn(base).some(hasLooks);
    [this.#at, this.#past] = [core.word(), core.word()];
    core.handed(join(hash, founder, baseKey, root, base), (at) => {
      const [by, key, last, chunks] = [1, 2, 3, 4].map((one) => at + one * HASH_BYTES);
      core.does("note_new", this.#at, site || NO_SITE, at, by, its, key, last, chunks, base.length);
    });
  }

  /** Lets it go. */
  close() {
    this.#core.call("note_free", this.#at);
  }

  /** A claim came.
   * @param {Uint8Array} author @param {number} site @param {Uint8Array} rank */
  claim(author, site, rank) {
    const core = this.#core;
    core.handed(join(author, rank), (at) => core.does("note_claim", this.#at, at, site, at + HASH_BYTES));
  }

  /** An entry of messages came; whether its body is one of such an entry.
   * @param {Saying} entry */
  add({ author, site, text, first, count, before, body }) {
    const core = this.#core;
    const head = join(author, before, little(first, 4), little(count, 2), little(site, 2), little(text, 2), [0, 0]);
    const refused = core.handed(join(head, body), (at) => core.call("note_add", this.#at, at, at + HEAD_BYTES, body.length));
    if (refused > 1) throw new RefusedByCore(refused);
    this.mayHaveLooks ||= hasLooks(body.subarray(2 + ON_BYTES * numberAt(body, 0, 2)));
    return refused === 0;
  }

  /** Shows what counts. */
  update() {
    this.#core.does("note_update", this.#at);
  }

  /** @param {number} text @param {number} pos @param {Uint8Array} bytes */
  insert(text, pos, bytes) {
    const core = this.#core;
    core.handed(bytes, (at, length) => core.does("note_insert", this.#at, text, BigInt(pos), at, length, core.answer));
  }

  /** @param {number} text @param {number} beg @param {number} end */
  delete(text, beg, end) {
    this.#core.does("note_delete", this.#at, text, BigInt(beg), BigInt(end), this.#core.answer);
  }

  /** Has a range be of a font, a colour and an offset.
   * @param {number} text @param {number} beg @param {number} end @param {import("./looking.js").Look} look */
  changeLooks(text, beg, end, { font, colour, offset }) {
    const core = this.#core;
    this.mayHaveLooks = true;
    core.handed(join(font), (at, length) => core.does("note_change_looks", this.#at, text, BigInt(beg), BigInt(end), ALL_LOOKS, at, length,
      colour, offset, core.answer));
  }

  /** What a character looks like, and where others begin.
   * @param {number} text @param {number} pos */
  looksAt(text, pos) {
    const core = this.#core;
    const run = core.answer + 8;
    return core.filled(1, (at, most) => core.call("note_looks", this.#at, text, BigInt(pos), run, at, most, core.answer), (at, many) => (
      { end: core.wide(run), colour: core.byte(run + 8), offset: (core.byte(run + 9) << 24) >> 24,
        font: String.fromCharCode(...core.bytes(at, many)) }));
  }

  /** Deletes the characters of names that are shown, or shows those again that aren't.
   * @param {number} text @param {Names[]} names @param {boolean} shows */
  byNames(text, names, shows) {
    const core = this.#core;
    for (let first = 0; first < names.length; first += MOST_NAMES) {
      const some = names.slice(first, first + MOST_NAMES);
      const rows = new DataView(new ArrayBuffer(NAMES * some.length));
      some.flat().forEach((value, at) => rows.setUint32(4 * at, value, true));
      core.handed(new Uint8Array(rows.buffer), (at) => (
        core.does(shows ? "note_restore_names" : "note_delete_names", this.#at, text, at, some.length, core.answer)));
    }
  }

  /** Has own edits of texts count, as entries by who has the number, which are given: before others' that came since, as they are shown. In
   * another order the text would begin anew.
   * @param {number[]} texts @param {Uint8Array} author */
  say(texts, author) {
    /** @type {Saying[]} */
    const found = [];
    for (const text of texts) {
      let one = this.#own(text, author, 0);
      for (let index = 1; one; index += 1) {
        found.push(one);
        one = this.#own(text, author, index);
      }
    }
    for (const one of found) this.add(one);
    try {
      if (found.length) this.update();
    } catch (why) {
      // They are added, so they count, now or after the next update: whoever is to keep them has to have them.
      if (!(why instanceof RefusedByCore)) throw why;
    }
    return found;
  }

  /** @param {number} text @param {Uint8Array} author @param {number} index @returns {Saying | null} */
  #own(text, author, index) {
    const core = this.#core;
    const head = core.answer + 8;
    return core.handed(author, (by) => {
      let isThere = true;
      return core.filled(1, (at, most) => {
        const refused = core.call("note_own", this.#at, text, by, BigInt(index), head, at, most, core.answer);
        isThere = refused !== NO_MESSAGE;
        return isThere ? refused : 0;
      }, (at, many) => (isThere ? { author, site: core.short(head + 70), text, first: core.number(head + 64),
        count: core.short(head + 68), before: core.bytes(head + HASH_BYTES, HASH_BYTES), body: core.bytes(at, many) } : null));
    });
  }

  /** @param {number} text */
  length(text) {
    this.#core.does("note_length", this.#at, text, this.#core.answer);
    return this.#core.wide(this.#core.answer);
  }

  /** @param {number} text @param {number} beg @param {number} end */
  bytes(text, beg, end) {
    const core = this.#core;
    return core.filled(1, (at, most) => core.call("note_bytes", this.#at, text, BigInt(beg), BigInt(end), at, most, core.answer),
      (at, many) => core.bytes(at, many));
  }

  /** The names of a range's characters.
   * @param {number} text @param {number} beg @param {number} end */
  names(text, beg, end) {
    const core = this.#core;
    return core.filled(NAME, (at, most) => core.call("note_names", this.#at, text, BigInt(beg), BigInt(end), at, most, core.answer),
      (at, many) => this.#inRows(at, many));
  }

  /** Names of which neighbouring ones are one.
   * @param {number} at @param {number} many */
  #inRows(at, many) {
    const core = this.#core;
    /** @type {Names[]} */
    const found = [];
    for (let name = at; name < at + NAME * many; name += NAME) {
      const [last, site, offset] = [found[found.length - 1], core.short(name), core.number(name + 4)];
      if (last && last[0] === site && last[1] + last[2] === offset) last[2] += 1;
      else found.push([site, offset, 1]);
    }
    return found;
  }

  /** Where the character of a name is: how many shown ones stand up to it; nothing where it isn't here.
   * @param {number} text @param {number} site @param {number} offset */
  find(text, site, offset) {
    const core = this.#core;
    if (core.call("note_find", this.#at, text, site, offset, core.answer)) return null;
    return { pos: core.wide(core.answer), isShown: core.byte(core.answer + 8) === 1 };
  }

  /** How many messages of a site count.
   * @param {number} text @param {number} site */
  front(text, site) {
    this.#core.does("note_front", this.#at, text, site, this.#core.answer);
    return this.#core.number(this.#core.answer);
  }

  /** How many messages of each site count.
   * @param {number} text @returns {[number, number][]} */
  fronts(text) {
    const core = this.#core;
    const sites = core.filled(2, (at, most) => core.call("note_sites", this.#at, text, at, most, core.answer),
      (at, many) => Array.from({ length: many }, (_, index) => core.short(at + 2 * index)));
    return sites.map((site) => [site, this.front(text, site)]);
  }

  /** A text as it was when so many messages of each site counted: its bytes, and their names.
   * @param {number} text @param {[number, number][]} fronts */
  past(text, fronts) {
    const core = this.#core;
    const rows = new DataView(new ArrayBuffer(NAME * fronts.length));
    fronts.flat().forEach((value, at) => rows.setUint32(4 * at, value, true));
    core.handed(new Uint8Array(rows.buffer), (at) => core.does("note_past", this.#at, text, at, fronts.length, this.#past));
    try {
      core.does("past_length", this.#past, core.answer);
      const all = [0n, BigInt(core.wide(core.answer))];
      return {
        bytes: core.filled(1, (at, most) => core.call("past_bytes", this.#past, ...all, at, most, core.answer), (at, many) => core.bytes(at, many)),
        names: core.filled(NAME, (at, most) => core.call("past_names", this.#past, ...all, at, most, core.answer), (at, many) => this.#inRows(at, many)),
      };
    } finally {
      core.call("past_free", this.#past);
    }
  }

  /** What changed of what is shown, since this was asked last; and whether all that was shown then gives way to all that is shown now, as
   * it does for whoever asks first.
   * @param {number} text @param {boolean} isFirst */
  changes(text, isFirst = false) {
    const core = this.#core;
    const flag = core.answer + 8;
    return core.filled(CHANGE, (at, most) => core.call("note_changes", this.#at, text, flag, at, most, core.answer), (at, many) => {
      const isAnew = isFirst || core.byte(flag) === 1;
      /** @type {Changed[]} */
      const changes = Array.from({ length: isAnew ? 0 : many }, (_, index) => at + CHANGE * index).map((one) => (
        { kind: core.number(one), beg: core.wide(one + 8), end: core.wide(one + 16) }));
      return { isAnew, changes };
    });
  }
}
