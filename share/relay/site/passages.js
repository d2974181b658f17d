// What somebody typed, put together where it stood.
import { PLAIN, isAlike, spelledOver } from "./looking.js";

/** @typedef {import("./chunk.js").Operation} Operation */
/** @typedef {import("./looking.js").Look} Look */
/** What was typed in one place, and the character after which that is; null at the front, nothing where that isn't here. It looks so, so many
 * bytes after the other.
 * @typedef {{ cause?: import("./chunk.js").Place | null, bytes: Uint8Array, looks: { many: number, look: Look }[] }} Passage */
/** A byte of a passage, and the next one.
 * @typedef {{ byte: number, look: Look, isShown: boolean, next: Letter | null }} Letter */

const ALL_VALUES = 7;

/** What somebody typed, passage by passage.
 * @param {Operation[]} operations one after the other @param {boolean} hides whether without what he has deleted of it himself, and in the looks
 * that he gave it: of others that may take any time
 * @returns {Passage[]} */
export function passagesOf(operations, hides) {
  /** @type {{ cause: Passage["cause"], first: Letter }[]} */
  const passages = [];
  /** @type {Map<number, Letter>} */
  const letters = new Map();
  for (const { kind, site, cause, at, data, names, looks } of operations) {
    if (data.length) {
      const look = spelledOver(PLAIN, ALL_VALUES, looks);
      let last = cause?.[0] === site ? letters.get(cause[1]) : undefined;
      if (!last) {
        last = { byte: 0, look, isShown: false, next: null };
        passages.push({ cause, first: last });
      }
      for (const [index, byte] of data.entries()) {
        last.next = { byte, look, isShown: true, next: last.next };
        last = last.next;
        letters.set(at + index, last);
      }
    } else if (hides) {
      for (const letter of thoseOf(names, site, letters)) {
        if (kind === "looked") letter.look = spelledOver(letter.look, looks[0], looks.subarray(1));
        else letter.isShown = kind === "restored";
      }
    }
  }
  return passages.map(({ cause, first }) => ({ cause, ...shownFrom(first) })).filter(({ bytes }) => bytes.length > 0);
}

/** @param {import("./chunk.js").Names[]} names @param {number} site @param {Map<number, Letter>} letters */
function* thoseOf(names, site, letters) {
  for (const [of, first, many] of names) {
    for (let at = first; of === site && at < first + many; at += 1) {
      const letter = letters.get(at);
      if (letter) yield letter;
    }
  }
}

/** @param {Letter | null} letter */
function shownFrom(letter) {
  const found = [];
  /** @type {Passage["looks"]} */
  const looks = [];
  for (let one = letter; one; one = one.next) {
    const last = looks[looks.length - 1];
    if (!one.isShown) continue;
    found.push(one.byte);
    if (last && isAlike(last.look, one.look)) last.many += 1;
    else looks.push({ many: 1, look: one.look });
  }
  return { bytes: Uint8Array.from(found), looks };
}
