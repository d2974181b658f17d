// A text as it was: what it said, who wrote what, and what has changed since.
import { Buffer } from "../../../library/node/bytes.js";
import { INSERT } from "../../../library/node/delta.js";
import { Positions } from "../../../library/node/positions.js";
import { readable, wroteOf } from "./shared.js";

/** @typedef {import("./value.js").Names} Names */
/** @typedef {import("./shared.js").SharedText} SharedText */
/** @typedef {import("./shared.js").Wrote} Wrote */
/** The bytes of a text, and their names.
 * @typedef {{ bytes: Uint8Array, names: Names[] }} Former */
/** Characters of a text that another one doesn't show: how many before them are in both, their position, and their names.
 * @typedef {{ kept: number, at: number, names: Names }} Apart */

/** What a text said, and who wrote what of it.
 * @param {Former} former @returns {{ text: string, stretches: Wrote[] }} */
export function shownOf({ bytes, names }) {
  const positions = new Positions();
  if (bytes.length) positions.follow([{ kind: INSERT, beg: 0, end: bytes.length }], (begin, end) => Buffer.from(bytes.subarray(begin, end)));
  return { text: readable(bytes), stretches: wroteOf(names, 0, (byte) => positions.unit(byte)) };
}

/** What came into a text since it was so, and what went: that stands where the first of it stood.
 * @param {Former} former @param {SharedText} text */
export function changedSince(former, text) {
  const now = text.names();
  /** @type {Wrote[]} */
  const came = [];
  for (const { at, names: [site, , many] } of apart(now, former.names)) {
    const [begin, end] = [text.unit(at), text.unit(at + many)];
    const last = came[came.length - 1];
    if (last && last.site === site && last.end === begin) last.end = end;
    else if (end > begin) came.push({ begin, end, site });
  }
  return { came, went: wentOf(former, now, text) };
}

/** @param {Former} former @param {Names[]} now @param {SharedText} text */
function wentOf(former, now, text) {
  /** @type {{ at: number, site: number, text: string }[]} */
  const went = [];
  let [gap, place] = [-1, 0];
  for (const { kept, at, names: [site, offset, many] } of apart(former.names, now)) {
    if (kept !== gap) [gap, place] = [kept, text.placeOf([site, offset]) ?? 0];
    const gone = readable(former.bytes.subarray(at, at + many));
    const last = went[went.length - 1];
    if (last?.at === place && last.site === site) last.text += gone;
    else went.push({ at: place, site, text: gone });
  }
  return went;
}

/** The characters of a text, by their names, that another one doesn't show.
 * @param {Names[]} names @param {Names[]} others */
function apart(names, others) {
  const marks = marksOf(others);
  /** @type {Apart[]} */
  const found = [];
  let [kept, at] = [0, 0];
  for (const [site, offset, many] of names) {
    const marked = marks.get(site);
    for (let first = 0; first < many;) {
      const isKept = marked?.[offset + first] === 1;
      let end = first + 1;
      while (end < many && (marked?.[offset + end] === 1) === isKept) end += 1;
      if (isKept) kept += end - first;
      else found.push({ kept, at: at + first, names: [site, offset + first, end - first] });
      first = end;
    }
    at += many;
  }
  return found;
}

/** Of each site a byte for each of its characters: 1 where it is one of these.
 * @param {Names[]} names */
function marksOf(names) {
  /** @type {Map<number, number>} */
  const ends = new Map();
  for (const [site, offset, many] of names) ends.set(site, Math.max(ends.get(site) ?? 0, offset + many));
  const marks = new Map([...ends].map(([site, end]) => [site, new Uint8Array(end)]));
  for (const [site, offset, many] of names) marks.get(site)?.fill(1, offset, offset + many);
  return marks;
}
