// A record of a note's margin: one line of JSON, read strictly, as share/review/record.py has it. Anybody with the link may write there
// whatever he likes, and all who have a line have the same record of it, or none.
import { sha256 } from "./keys.js";
import { hex } from "./bytes.js";

/** @typedef {import("./value.js").Names} Names */
/** @typedef {[number, number]} Name */
/** What names a record: its first character, and its sum.
 * @typedef {{ id: string, sum: string }} Ref */
/** Of which characters something is said, in their order then, or the character before a place; of sites the begin of the hash of the
 * message that inserted the last one of theirs; what was selected, and the sum of all the bytes.
 * @typedef {{ at: Names[], behind: Name | null, saw: Record<string, string>, text: string, sum: string }} Anchor */
/** `parts` is how many go on with it; of what goes on with another, `part` says which it is, and `at` and `saw` what it has of an anchor.
 * @typedef {{ kind: string, by: string, time: number, sum: string, body: string, of: Ref | null, anchor: Anchor | null, new: Names[],
 *   state: string | null, accepts: boolean | null, parts: number, part: number, at: Names[], saw: Record<string, string> }} MarginRecord */
/** @typedef {Record<string, any>} Fields */

/** The text of a note that is its margin. */
export const MARGIN = 2;
export const [VERSION, MOST_OF_A_LINE, MOST_BY, MOST_SELECTED, MOST_OF_A_BODY, MOST_PARTS] = [1, 4_096, 40, 200, 100_000, 1_000];
/** No record has fewer bytes. */
export const LEAST_OF_A_LINE = '{"v":1,"is":"","by":"","time":0}\n'.length;
const [MOST_NESTED, GREATEST_TIME, GREATEST_SITE, MOST_OF_A_SITE, HASH_DIGITS, LINE_END] = [16, 2 ** 53 - 1, 65_535, 2 ** 24, 16, 10];
const [HASH, SITE] = [/^[0-9a-f]{16}$/, /^[1-9][0-9]{0,4}$/];
// eslint-disable-next-line no-control-regex
const CONTROL = /[\0-\x1f\x7f-\x9f]/;
// A string of a line, or what has no end; and what opens or ends a nested value.
const [STRING, NESTING] = [/"(?:[^"\\]|\\[^\n])*"?/g, /[\][{}]/g];
const STATES = ["open", "resolved", "rejected"];

/** A line that is no record. */
class None extends Error {}

/** @param {boolean} isRight */
function need(isRight) {
  if (!isRight) throw new None();
}

/** @param {number} site @param {number} at */
export const idOf = (site, at) => `${site}:${at}`;

/** How long a text is in characters, of which a pair of surrogates is one.
 * @param {string} text */
export const lengthOf = (text) => [...text].length;

/** The sum of some bytes, of a record's those of its line with the end.
 * @param {Uint8Array} data */
export const sumOf = async (data) => hex(await sha256(data)).slice(0, HASH_DIGITS);

/** The record that is the bytes of one insertion, which have this sum; none where they aren't one.
 * @param {Uint8Array} data @param {string} sum @returns {MarginRecord | null} */
export function readLine(data, sum) {
  if (data.length < LEAST_OF_A_LINE || data.length > MOST_OF_A_LINE || data.indexOf(LINE_END) !== data.length - 1) return null;
  try {
    const found = objectIn(data);
    number(found.v, VERSION, VERSION);
    const [kind, by] = [string(found.is), string(found.by)];
    need(Object.hasOwn(READERS, kind) && lengthOf(by) <= MOST_BY && !CONTROL.test(by));
    const one = { kind, by, time: number(found.time, 0, GREATEST_TIME), sum, body: "", of: null, anchor: null, new: [], state: null,
      accepts: null, parts: 0, part: 0, at: [], saw: {} };
    return { ...one, ...READERS[kind](found) };
  } catch (why) {
    if (why instanceof None || why instanceof SyntaxError || why instanceof TypeError) return null;
    throw why;
  }
}

/** The object of a line.
 * @param {Uint8Array} data @returns {Fields} */
function objectIn(data) {
  need(nested(String.fromCharCode(...data)) <= MOST_NESTED);
  // Bytes that are no UTF-8 are a TypeError.
  const found = JSON.parse(new TextDecoder("utf-8", { fatal: true, ignoreBOM: true }).decode(data));
  need(isObject(found) && isWhole(found));
  return found;
}

/** How deeply values are nested.
 * @param {string} line */
function nested(line) {
  let [depth, deepest] = [0, 0];
  for (const [one] of line.replace(STRING, "").matchAll(NESTING)) {
    depth += "[{".includes(one) ? 1 : -1;
    deepest = Math.max(deepest, depth);
  }
  return deepest;
}

/** Whether no string has half a surrogate pair.
 * @param {unknown} value @returns {boolean} */
function isWhole(value) {
  if (typeof value === "string") return !/\p{Cs}/u.test(value);
  return !value || typeof value !== "object" || Object.entries(value).every(([name, one]) => isWhole(name) && isWhole(one));
}

/** @param {unknown} found */
const isObject = (found) => typeof found === "object" && found !== null && !Array.isArray(found);

/** @param {unknown} found @returns {string} */
function string(found) {
  need(typeof found === "string");
  return /** @type {string} */ (found);
}

/** A whole number, however it is spelled.
 * @param {unknown} found @param {number} least @param {number} most @returns {number} */
function number(found, least, most) {
  need(Number.isInteger(found) && Number(found) >= least && Number(found) <= most);
  // There is no -0.
  return Number(found) + 0;
}

/** The begin of a hash.
 * @param {unknown} found */
function hash(found) {
  need(HASH.test(string(found)));
  return string(found);
}

/** @param {unknown} found @param {number} [length] @returns {unknown[]} */
function list(found, length) {
  need(Array.isArray(found) && (length === undefined || found.length === length));
  return /** @type {unknown[]} */ (found);
}

/** Names in their order in a text.
 * @param {unknown} found @returns {Names[]} */
const namesIn = (found) => list(found).map((one) => {
  const [site, at, length] = list(one, 3);
  /** @type {Names} */
  const names = [number(site, 1, GREATEST_SITE), number(at, 0, MOST_OF_A_SITE - 1), number(length, 1, MOST_OF_A_SITE)];
  need(names[1] + names[2] <= MOST_OF_A_SITE);
  return names;
});

/** The character before a place.
 * @param {unknown} found @returns {Name} */
function place(found) {
  const [site, at] = list(found, 2);
  /** @type {Name} */
  const name = [number(site, 0, GREATEST_SITE), number(at, 0, MOST_OF_A_SITE - 1)];
  need(Boolean(name[0] || !name[1]));
  return name;
}

/** @param {Fields} found @returns {{ of: Ref }} */
function ref({ of }) {
  const [site, at, sum] = list(of, 3);
  return { of: { id: idOf(number(site, 1, GREATEST_SITE), number(at, 0, MOST_OF_A_SITE - 1)), sum: hash(sum) } };
}

/** Hashes by sites.
 * @param {unknown} found @returns {Record<string, string>} */
function saw(found) {
  need(isObject(found));
  const each = Object.entries(/** @type {object} */ (found));
  need(each.every(([site]) => SITE.test(site)));
  return Object.fromEntries(each.map(([site, of]) => [number(Number(site), 1, GREATEST_SITE), hash(of)]));
}

/** @param {Fields} found */
function withBody(found) {
  return { body: string(found.body), parts: Object.hasOwn(found, "parts") ? number(found.parts, 1, MOST_PARTS) : 0 };
}

/** A remark, or a suggestion.
 * @param {Fields} found */
function anchored(found) {
  need(Object.hasOwn(found, "at") !== Object.hasOwn(found, "behind"));
  const at = Object.hasOwn(found, "at") ? namesIn(found.at) : [];
  const behind = at.length ? null : place(found.behind);
  const text = string(found.text);
  need(lengthOf(text) <= MOST_SELECTED);
  const anchor = { at, behind, saw: saw(found.saw), text, sum: hash(found.sum) };
  if (found.is === "remark") return { ...withBody(found), anchor };
  const made = namesIn(found.new);
  // Else it suggests nothing.
  need(!behind || made.length > 0);
  return { ...withBody(found), anchor, new: made };
}

/** @param {Fields} found */
const answering = (found) => ({ ...withBody(found), ...ref(found) });

/** @param {Fields} found */
function withState(found) {
  need(STATES.includes(found.state));
  return { ...ref(found), state: string(found.state), accepts: typeof found.accepts === "boolean" ? found.accepts : null };
}

/** @param {Fields} found */
function more(found) {
  return { ...ref(found), part: number(found.part, 1, MOST_PARTS), body: string(found.body),
    at: Object.hasOwn(found, "at") ? namesIn(found.at) : [], saw: Object.hasOwn(found, "saw") ? saw(found.saw) : {} };
}

/** @type {Record<string, (found: Fields) => Partial<MarginRecord>>} */
const READERS = { remark: anchored, suggestion: anchored, reply: answering, state: withState, taken: ref, revised: answering, more };

/** Whether a kind begins a thread.
 * @param {string} kind */
export const begins = (kind) => kind === "remark" || kind === "suggestion";
