// The messages of a chunk, as docs/FORMATS.md has them. Whether they are right, and count, the core says.
import { Trouble, join } from "./bytes.js";

/** Names of neighbouring characters: a site, an offset, and how many from there on.
 * @typedef {[number, number, number]} Names */
/** Messages of a site that do one thing, letters typed one after the other in one: the seq and the stamp of the first, and how many they
 * are; of an insertion the character before it, or nothing at the front, where it stands in its site's file, and its bytes; of others the
 * names; and looks as a message has them.
 * @typedef {{ kind: string, site: number, seq: number, stamp: number, size: number, cause: Place | null, at: number, data: Uint8Array,
 *   names: Names[], looks: Uint8Array }} Operation */
/** @typedef {[number, number]} Place */

const [TAG_BYTES, PLAIN_LOOKS_SELECTED] = [6, 7];
const [OTHER_SITE, LATER_STAMP, NEW_LOOKS, NEAR_CARET, FAR_FROM_CARET, LONG, SET, ONE, CHANGED, RESTORED, ESCAPE, NEW_SITE]
  = [1, 2, 3, 4, 5, 6, 7, 8, 0x0b, 0x0c, 0x0e, 0x0f];
const CODES = new Set([OTHER_SITE, LATER_STAMP, NEW_LOOKS, NEAR_CARET, FAR_FROM_CARET, LONG, SET, ONE, CHANGED, RESTORED, ESCAPE,
  NEW_SITE]);
const OF_NAMES = new Map([[SET, "deleted"], [RESTORED, "restored"], [CHANGED, "looked"]]);
const NONE = new Uint8Array(0);
/** The looks of a plain character, as an insertion has them. */
export const PLAIN_LOOKS = join([16], "Oberon10.Scn.Fnt", [1, 0]);

class Reader {
  #bytes;
  #at = TAG_BYTES;
  #site = 0;
  #seq = 0;
  #stamp = 0;
  // The looks of the insertion before.
  #looked = PLAIN_LOOKS;
  // How long the site's file is, and where its next letter would stand.
  #length = 0;
  /** @type {Place | null} */
  #caret = null;

  #left;

  /** @param {Uint8Array} bytes @param {number} most how many messages are read */
  constructor(bytes, most = Infinity) {
    [this.#bytes, this.#left] = [bytes, most];
  }

  /** How many bytes were read. */
  get length() {
    return this.#at;
  }

  /** @returns {Generator<Operation>} */
  * operations() {
    while (this.#at < this.#bytes.length && this.#left > 0) {
      let code = this.#byte();
      if (code === NEW_SITE) {
        [this.#site, this.#seq, this.#stamp, this.#length] = [this.#number(), this.#number(), this.#number(), this.#number()];
        [this.#caret, this.#looked] = [null, PLAIN_LOOKS];
        if (!this.#stamp) throw new Trouble("An entry of the note has no chunk.");
        code = this.#byte();
      }
      if (code === LATER_STAMP) {
        this.#stamp += this.#number();
        code = this.#byte();
      }
      if (code === NEW_LOOKS) {
        this.#looked = this.#looks(PLAIN_LOOKS_SELECTED);
        code = this.#byte();
      }
      let place = this.#caret;
      if (code === NEAR_CARET || code === FAR_FROM_CARET) {
        place = code === NEAR_CARET ? this.#near() : this.#far();
        code = this.#byte();
      }
      const one = this.#operation(code, place);
      this.#left -= one.size;
      yield one;
    }
  }

  /** @param {number} code @param {Place | null} place @returns {Operation} */
  #operation(code, place) {
    const kind = OF_NAMES.get(code);
    if (!kind && code !== ONE) return this.#inserted(code, place);
    const looks = code === CHANGED ? this.#changed() : NONE;
    /** @type {Names[]} */
    const names = kind ? this.#names() : [[...place ?? [0, 0], 1]];
    const [[site, first]] = names;
    if (code === ONE || code === SET) this.#caret = first ? [site, first - 1] : null;
    [this.#seq, this.#stamp] = [this.#seq + 1, this.#stamp + 1];
    return { kind: kind ?? "deleted", site: this.#site, seq: this.#seq - 1, stamp: this.#stamp - 1, size: 1, cause: null, at: 0, data: NONE,
      names, looks };
  }

  /** @param {number} code @param {Place | null} cause @returns {Operation} */
  #inserted(code, cause) {
    const isLong = code === LONG;
    const data = isLong ? this.#take(this.#number() + 2) : this.#letters(code);
    const size = isLong ? 1 : data.length;
    const one = { kind: "typed", site: this.#site, seq: this.#seq, stamp: this.#stamp, size, cause, at: this.#length, data, names: [],
      looks: this.#looked };
    [this.#seq, this.#stamp, this.#length] = [this.#seq + size, this.#stamp + size, this.#length + data.length];
    this.#caret = [this.#site, this.#length - 1];
    return one;
  }

  /** A letter, and those that were typed after it.
   * @param {number} code */
  #letters(code) {
    const found = [code === ESCAPE ? this.#byte() : code];
    for (let next = this.#bytes[this.#at]; this.#at < this.#bytes.length; next = this.#bytes[this.#at]) {
      if (found.length === this.#left || (next !== ESCAPE && CODES.has(next))) break;
      this.#at += 1;
      found.push(next === ESCAPE ? this.#byte() : next);
    }
    return Uint8Array.from(found);
  }

  /** Ranges of names, each told by how it differs from the one before.
   * @returns {Names[]} */
  #names() {
    /** @type {Names[]} */
    const found = [];
    let [site, at, length] = [0, 0, 0];
    for (let left = this.#number() + 1; left > 0; left -= 1) {
      const more = this.#number();
      at = this.#number() + (more ? 0 : 1 + at + length);
      [site, length] = [site + more, this.#number() + 1];
      found.push([site, at, length]);
    }
    return found;
  }

  /** @returns {Place} */
  #near() {
    const [[site, at], zigzag] = [this.#caret ?? [0, 0], this.#number()];
    return [site, at + (zigzag % 2 ? -(zigzag + 1) / 2 : zigzag / 2)];
  }

  /** @returns {Place | null} */
  #far() {
    const site = this.#number();
    return site ? [site, this.#number()] : null;
  }

  /** Which of the values of looks are set, and these. */
  #changed() {
    const selected = this.#byte();
    return join([selected], this.#looks(selected));
  }

  /** Those values of looks that are selected, as they are spelled.
   * @param {number} selected */
  #looks(selected) {
    const begin = this.#at;
    if (selected & 1) this.#take(this.#byte());
    this.#take((selected >> 1 & 1) + (selected >> 2 & 1));
    return this.#bytes.slice(begin, this.#at);
  }

  #number() {
    let [value, worth] = [0, 1];
    for (let byte = this.#byte(); ; byte = this.#byte()) {
      value += (byte & 0x7f) * worth;
      if (byte < 0x80) return value;
      worth *= 128;
    }
  }

  #byte() {
    if (this.#at >= this.#bytes.length) throw new Trouble("An entry of the note was cut short.");
    this.#at += 1;
    return this.#bytes[this.#at - 1];
  }

  /** @param {number} length */
  #take(length) {
    this.#at += length;
    return this.#bytes.slice(this.#at - length, this.#at);
  }
}

/** @param {Uint8Array} chunk @returns {Operation[]} */
export const operationsOf = (chunk) => [...new Reader(chunk).operations()];

/** The chunk of the first messages of one.
 * @param {Uint8Array} chunk @param {number} many */
export function chunkOfFirst(chunk, many) {
  const reader = new Reader(chunk, many);
  Array.from(reader.operations());
  return chunk.slice(0, reader.length);
}

/** Whether a chunk has looks that aren't plain; also where it can't be read.
 * @param {Uint8Array} chunk */
export function hasLooks(chunk) {
  // What is neither code there is among nothing else.
  if (!chunk.includes(NEW_LOOKS) && !chunk.includes(CHANGED)) return false;
  try {
    return operationsOf(chunk).some(({ kind, looks }) => kind === "looked" || (kind === "typed" && looks !== PLAIN_LOOKS));
  } catch {
    return true;
  }
}
