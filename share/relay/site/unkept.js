// Unkept sayings: own messages that the browser's database doesn't have yet. They are written into the browser's storage before the page
// goes on, so they are there after the tab was closed or killed. The next tab that has the number's lock keeps them before it writes under
// that number.
import { hex, base64url, join, ofBase64url } from "./bytes.js";
import { KIND, claim, sealed } from "./entry.js";
import { authorsOf, heldOf, ownOf } from "./held.js";
import { sha256 } from "./keys.js";

/** @typedef {import("./value.js").Saying} Saying */
/** @typedef {import("./held.js").Held} Held */
/** @typedef {import("./own.js").Word} Word */
/** A saying, and the words that others' entries were made anew.
 * @typedef {{ saying: Saying, words: Word[] }} Unkept */

const BEGIN = "vialshoal unkept ";
const DAMAGED = "vialshoal damaged ";
const UNREADABLE = "Some of what a closed tab kept of its last keys can't be read. It is set aside in this browser's storage.";

/** Return the browser's storage. A browser that allows none keeps edits in its database only.
 * @returns {Storage | undefined} */
function storageHere() {
  try {
    return globalThis.localStorage;
  } catch {
    return undefined;
  }
}

/** Return the names of the unkept sayings of a note, or of one of its numbers, in the browser's storage.
 * @param {string} note @param {number} [site] */
function namesOf(note, site) {
  const begin = `${BEGIN}${note} ${site === undefined ? "" : `${site} `}`;
  return Object.keys(storageHere() ?? {}).filter((name) => name.startsWith(begin));
}

/** Return the numbers of a note that have unkept sayings.
 * @param {string} note @returns {Set<number>} */
export const sitesUnkept = (note) => new Set(namesOf(note).map((name) => Number(name.split(" ")[3])));

/** Write a saying into the browser's storage. Return its name there, "" if there is no room.
 * @param {string} note @param {Unkept} unkept */
export function writeUnkept(note, { saying, words }) {
  const { site, text, first, count, before, author, body } = saying;
  const name = `${BEGIN}${note} ${site} ${text} ${first}`;
  const spelled = { count, before: base64url(before), author: base64url(author), body: base64url(body),
    words: words.map((one) => ({ ...one, before: base64url(one.before) })) };
  try {
    storageHere()?.setItem(name, JSON.stringify(spelled));
  } catch {
    // Then only the database will have it.
    return "";
  }
  return name;
}

/** Remove sayings that the database has.
 * @param {string[]} names */
export function dropUnkept(names) {
  for (const name of names) storageHere()?.removeItem(name);
}

/** Remove the unkept sayings of a note that is forgotten.
 * @param {string} note */
export function forgetUnkept(note) {
  dropUnkept(namesOf(note));
}

/** Read an unkept saying of a name in the browser's storage; null if it can't be read.
 * @param {string} name @returns {Unkept | null} */
function read(name) {
  const [, , , site, text, first] = name.split(" ").map(Number);
  try {
    const { count, before, author, body, words } = JSON.parse(storageHere()?.getItem(name) ?? "");
    const saying = { site, text, first, count, before: ofBase64url(before), author: ofBase64url(author), body: ofBase64url(body) };
    return { saying, words: words.map((/** @type {any} */ one) => ({ ...one, before: ofBase64url(one.before) })) };
  } catch {
    return null;
  }
}

/** Give an item of the browser's storage another name, under which nobody looks for unkept sayings.
 * @param {string} name */
function setAside(name) {
  storageHere()?.setItem(name.replace(BEGIN, DAMAGED), storageHere()?.getItem(name) ?? "");
  storageHere()?.removeItem(name);
}

/** Return the unkept sayings of a number in their order. Set aside those that can't be read, and report that.
 * @param {string} note @param {number} site @param {(words: string) => void} says @returns {Unkept[]} */
function unkeptOf(note, site, says) {
  const found = [];
  for (const name of namesOf(note, site)) {
    const one = read(name);
    if (one) {
      found.push(one);
    } else {
      setAside(name);
      says(UNREADABLE);
    }
  }
  return found.sort(({ saying: one }, { saying: other }) => one.text - other.text || one.first - other.first);
}

/** Seal and keep sayings of a number, with the number's claim if that isn't kept yet. Each word has the signature of its author.
 * @param {import("./store.js").Store} store @param {import("./keys.js").NoteKeys} keys @param {string} note @param {Held} number
 * @param {Unkept[]} some @param {Map<string, import("./keys.js").Author>} authors of all numbers of this browser's user, by their names */
export async function keepSaid(store, keys, note, number, some, authors) {
  const { author, site, claims } = number;
  const raws = await Promise.all(some.flatMap(({ saying: { body, ...place }, words }) => [
    sealed(keys, KIND.messages, author, place, body), ...words.map(({ author: name, ...word }) => (
      sealed(keys, KIND.anew, /** @type {import("./keys.js").Author} */ (authors.get(name)), word, join())))]));
  if (claims) raws.unshift(await claim(keys, author, { counter: claims.counter, site }));
  const entries = await Promise.all(raws.map(async (raw) => ({ hash: hex(await sha256(raw)), raw, isSent: false })));
  await store.keep(note, entries, ({ numbers = [] }) => (
    { numbers: numbers.map((one) => (one.site === site ? { ...one, isClaimed: true } : one)) }));
  number.claims = null;
}

/** Keep the unkept sayings of a closed tab under a number of this browser's user. Return whether there were any. The caller holds the
 * number's lock.
 * @param {import("./store.js").Store} store @param {import("./keys.js").NoteKeys} keys @param {string} note @param {number} site
 * @param {(words: string) => void} says is told what the user has to know */
export async function keepUnkept(store, keys, note, site, says) {
  if (!namesOf(note, site).length) return false;
  const own = ownOf(await store.note(note));
  const one = own.find((it) => it.site === site);
  const some = one ? unkeptOf(note, site, says) : [];
  if (!one || !some.length) return false;
  const names = namesOf(note, site);
  await keepSaid(store, keys, note, await heldOf(keys, one), some, await authorsOf(own));
  dropUnkept(names);
  return true;
}
