// Messages one by one, and how they are spelled where they are hashed, as share/format/operation.py has it.
import { join, number } from "./bytes.js";

/** @typedef {import("./chunk.js").Operation} Operation */

/** @type {Record<string, number>} */
const KINDS = { typed: 1, deleted: 2, looked: 3, restored: 4 };

/** Some of the messages of letters that were typed one after the other.
 * @param {Operation} one @param {number} first @param {number} many @returns {Operation} */
export function partOf(one, first, many) {
  if (one.size === 1) return one;
  const data = one.data.slice(first, first + many);
  return { ...one, seq: one.seq + first, stamp: one.stamp + first, size: many, at: one.at + first, data,
    cause: first ? [one.site, one.at + first - 1] : one.cause };
}

/** The bytes of a message of a text.
 * @param {Operation} one @param {number} text */
export function spelled({ kind, site, seq, stamp, cause, at, data, names, looks }, text) {
  const version = kind === "restored" ? 2 : 1;
  const head = join("OT", [version, KINDS[kind]], number(text, 2), number(site, 2), number(seq, 4), number(stamp, 8));
  if (kind === "typed") {
    const [of, offset] = cause ?? [0, 0];
    return join(head, number(of, 2), number(offset, 4), number(at, 4), looks, number(data.length, 2), data);
  }
  return join(head, looks, number(names.length, 2),
    ...names.flatMap(([of, first, many]) => [number(of, 2), number(first, 4), number(many, 4)]));
}

/** Operations one by one.
 * @param {Operation[]} operations */
export const messagesIn = (operations) => operations.flatMap((one) => Array.from({ length: one.size }, (_, at) => partOf(one, at, 1)));
