// Whether the characters of an anchor are here, as its author saw them, as share/review/anchor.py has it.
import { hex, join } from "./bytes.js";
import { sumOf } from "./record.js";

/** @typedef {import("./record.js").Anchor} Anchor */
/** @typedef {import("./record.js").Name} Name */
/** @typedef {import("./value.js").Names} Names */
/** What a note has of its text, of all that counts, shown or not: the hash of the message that inserted a character, the bytes of some,
 * each nothing where they aren't there; and whether a site is of the base.
 * @typedef {{ inserter: (name: Name) => Promise<Uint8Array | null>, data: (names: Names) => Promise<Uint8Array | null>,
 *   isOfBase: (site: number) => boolean }} Knows */

/** The most characters that something is said of. */
export const MOST_ANCHORED = 100_000;
const SUM_DIGITS = 16;

/** Whether an anchor's characters, and a replacement's, which are its author's, are those that he saw.
 * @param {Anchor} anchor @param {Names[]} put @param {number} author @param {Knows} knows */
export async function holds(anchor, put, author, knows) {
  if (put.some(([site]) => site !== author) || !isSmall([...anchor.at, ...put])) return false;
  for (const name of lasts(anchor, put)) {
    if (knows.isOfBase(name[0])) continue;
    const found = await knows.inserter(name);
    if (!found || hashBegin(found) !== anchor.saw[name[0]]) return false;
  }
  if (anchor.behind?.[0] && !await knows.inserter(anchor.behind)) return false;
  return await sum([...anchor.at, ...put], knows) === anchor.sum;
}

/** A character without which an anchor can't hold, and which isn't there yet.
 * @param {Anchor} anchor @param {Names[]} put @param {Knows} knows */
export async function lacking(anchor, put, knows) {
  for (const name of isSmall([...anchor.at, ...put]) ? lasts(anchor, put) : []) if (!await knows.data([...name, 1])) return name;
  return null;
}

/** The anchor of what is said of these characters, as they are now. All are there.
 * @param {Names[]} at @param {Name | null} behind @param {Names[]} put @param {string} text @param {Knows} knows
 * @returns {Promise<Anchor>} */
export async function anchored(at, behind, put, text, knows) {
  const one = { at, behind, saw: /** @type {Record<string, string>} */ ({}), text, sum: await sum([...at, ...put], knows) ?? "" };
  for (const name of lasts(one, put)) {
    const found = knows.isOfBase(name[0]) ? null : await knows.inserter(name);
    if (found) one.saw[name[0]] = hashBegin(found);
  }
  return one;
}

/** Whether names are no more than something is said of, and none is there twice.
 * @param {Names[]} names */
function isSmall(names) {
  if (names.reduce((many, [, , length]) => many + length, 0) > MOST_ANCHORED) return false;
  const sorted = [...names].sort(([site, at], [of, from]) => site - of || at - from);
  return sorted.every(([site, at], place) => {
    const [of, from, length] = sorted[place - 1] ?? [0, 0, 0];
    return site !== of || at >= from + length;
  });
}

/** The last character of each site.
 * @param {Anchor} anchor @param {Names[]} put @returns {Name[]} */
function lasts({ at, behind }, put) {
  const found = new Map(behind?.[0] ? [behind] : []);
  for (const [site, first, length] of [...at, ...put]) found.set(site, Math.max(found.get(site) ?? 0, first + length - 1));
  return [...found].sort(([one], [other]) => one - other);
}

/** @param {Uint8Array} hash */
const hashBegin = (hash) => hex(hash).slice(0, SUM_DIGITS);

/** The sum of the bytes of names; nothing where one isn't there.
 * @param {Names[]} names @param {Knows} knows */
async function sum(names, knows) {
  /** @type {Uint8Array[]} */
  const parts = [];
  for (const one of names) {
    const data = await knows.data(one);
    if (!data) return null;
    parts.push(data);
  }
  return sumOf(join(...parts));
}
