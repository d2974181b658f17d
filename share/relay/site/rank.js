// Claims of numbers: what one costs, and how it is searched for. docs/NOTES.md has the rule.
import { join, numberAt } from "./bytes.js";
import { blockOf, hashed } from "./hashing.js";

export const [GREATEST_SITE, ZERO_BITS] = [65_528, 20];
const [RANK_BYTES, COUNTER_BYTES] = [32, 8];
const COUNTER_AT = 17 + 16 + 32;

/** What is hashed, with the counter to be put in at its end.
 * @param {Uint8Array} note @param {Uint8Array} author */
const trial = (note, author) => join("vialshoal 2 claim", note, author, new Uint8Array(COUNTER_BYTES));

/** The hash of an author's claim: of two claims of a number the one of less rank holds.
 * @param {Uint8Array} note @param {Uint8Array} author @param {bigint} counter */
export async function rankOf(note, author, counter) {
  const tried = trial(note, author);
  new DataView(tried.buffer).setBigUint64(tried.length - COUNTER_BYTES, counter);
  return new Uint8Array(await crypto.subtle.digest("SHA-512", tried)).slice(0, RANK_BYTES);
}

/** Whether a rank, or a hash, is less than another one.
 * @param {Uint8Array} one @param {Uint8Array} other */
export function isBelow(one, other) {
  const at = one.findIndex((byte, place) => byte !== other[place]);
  return at >= 0 && one[at] < other[at];
}

/** The number that a rank claims; 0 where it claims none.
 * @param {Uint8Array} rank @param {number} zeroBits */
export function numberOfRank(rank, zeroBits = ZERO_BITS) {
  const site = numberAt(rank, 0, 2);
  const behind = Math.floor(numberAt(rank, 2, 4) / 2 ** (32 - zeroBits));
  return behind === 0 && site >= 1 && site <= GREATEST_SITE ? site : 0;
}

/** Searches from a counter on for one by which an author has a number that isn't taken. Nothing else goes on meanwhile in its thread.
 * @param {Uint8Array} note @param {Uint8Array} author @param {Set<number>} taken @param {bigint} begin @param {number} zeroBits */
export async function searched(note, author, taken, begin, zeroBits = ZERO_BITS) {
  const [block, words] = [blockOf(trial(note, author)), new Int32Array(2)];
  let [high, low] = [Number(begin >> 32n), Number(begin & 0xffffffffn)];
  for (; ;) {
    block.setUint32(COUNTER_AT, high);
    block.setUint32(COUNTER_AT + 4, low);
    hashed(block, words);
    const behind = ((words[0] << 16) | (words[1] >>> 16)) >>> 0;
    if (behind < 2 ** (32 - zeroBits) && !taken.has(words[0] >>> 16)) {
      const counter = (BigInt(high) << 32n) | BigInt(low);
      const site = numberOfRank(await rankOf(note, author, counter), zeroBits);
      if (site) return { counter, site };
    }
    low = (low + 1) >>> 0;
    if (!low) high = (high + 1) >>> 0;
  }
}
