// The core as WebAssembly: how its functions are called. What they read and write is as library/vialshoal.h has it, with sizes and pointers
// of 32 bits.
import { Trouble } from "./bytes.js";

const [OUT_OF_MEMORY, TOO_SHORT, MOST_BYTES] = [7, 107, 2 ** 31 - 1];
// How much is kept for the numbers that a call answers, for what it reads, and for what it writes; what is more takes memory of its own.
const [ANSWER, ROOM] = [256, 65_536];
const NO_MEMORY = "This page has no memory left for the note. Close other tabs, and load it again.";

/** What the core refused, by a number. */
export class RefusedByCore extends Trouble {
  /** @param {number} number */
  constructor(number) {
    super(number === OUT_OF_MEMORY ? NO_MEMORY : `The note's core refused something (${number}).`);
    this.number = number;
  }
}

export class Core {
  /** @type {any} */
  #exports;
  #bytes;
  #words;
  #isLost = false;

  /** @param {WebAssembly.Module} module */
  constructor(module) {
    this.#exports = new WebAssembly.Instance(module).exports;
    [this.#bytes, this.#words] = this.#views();
    this.answer = this.#allocated(ANSWER + 2 * ROOM);
    this.given = this.answer + ANSWER;
    this.room = this.given + ROOM;
  }

  /** The core of a file of the page's.
   * @param {URL} address */
  static async of(address) {
    const answer = await fetch(address, { credentials: "omit" });
    if (!answer.ok) throw new Trouble("The core of this page isn't there. Load it again.");
    return new Core(await WebAssembly.compile(await answer.arrayBuffer()));
  }

  /** Whether it has a function.
   * @param {string} name */
  has(name) {
    return `vialshoal_${name}` in this.#exports;
  }

  /** What a function answers. One that didn't come back may have left things half done, so none is called after it.
   * @param {string} name @param {...(number | bigint)} given @returns {number} */
  call(name, ...given) {
    if (this.#isLost) throw new Trouble("The note's core has a fault. Load the page again.");
    this.#isLost = true;
    const number = this.#exports[`vialshoal_${name}`](...given) >>> 0;
    this.#isLost = false;
    if (this.#words.buffer !== this.#exports.memory.buffer) [this.#bytes, this.#words] = this.#views();
    return number;
  }

  /** Calls a function that is to refuse nothing.
   * @param {string} name @param {...(number | bigint)} given */
  does(name, ...given) {
    const number = this.call(name, ...given);
    if (number) throw new RefusedByCore(number);
  }

  /** Room for a word of the core's, for good. */
  word() {
    const at = this.#allocated(4);
    this.#words.setUint32(at, 0, true);
    return at;
  }

  /** What `use` gives, which is called with where these bytes stand and how many they are.
   * @template T @param {Uint8Array} data @param {(at: number, length: number) => T} use @returns {T} */
  handed(data, use) {
    return this.#within(this.given, data.length, (at) => {
      this.#bytes.set(data, at);
      return use(at, data.length);
    });
  }

  /** What `read` makes of what `put` puts into a room for this many items of this size, and says how many there are.
   * @template T @param {number} size @param {(at: number, most: number) => number} put
   * @param {(at: number, many: number) => T} read @returns {T} */
  filled(size, put, read) {
    const number = put(this.room, Math.floor(ROOM / size));
    const need = this.wide(this.answer);
    if (number === 0) return read(this.room, need);
    if (number !== TOO_SHORT) throw new RefusedByCore(number);
    return this.#within(this.room, size * need, (at) => {
      const again = put(at, need);
      if (again) throw new RefusedByCore(again);
      return read(at, need);
    });
  }

  /** @param {number} at @param {number} length */
  bytes(at, length) {
    return this.#bytes.slice(at, at + length);
  }

  /** @param {number} at */
  byte(at) {
    return this.#bytes[at];
  }

  /** @param {number} at */
  short(at) {
    return this.#words.getUint16(at, true);
  }

  /** @param {number} at */
  number(at) {
    return this.#words.getUint32(at, true);
  }

  /** @param {number} at */
  wide(at) {
    return this.number(at) + 2 ** 32 * this.number(at + 4);
  }

  /** @returns {[Uint8Array, DataView]} */
  #views() {
    const { buffer } = this.#exports.memory;
    return [new Uint8Array(buffer), new DataView(buffer)];
  }

  /** @param {number} length */
  #allocated(length) {
    const at = length <= MOST_BYTES ? this.call("wasm_allocate", length) : 0;
    if (!at) throw new RefusedByCore(OUT_OF_MEMORY);
    return at;
  }

  /** @template T @param {number} kept @param {number} length @param {(at: number) => T} use @returns {T} */
  #within(kept, length, use) {
    if (length <= ROOM) return use(kept);
    const at = this.#allocated(length);
    try {
      return use(at);
    } finally {
      this.call("wasm_free", at, length);
    }
  }
}
