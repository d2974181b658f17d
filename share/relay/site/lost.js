// Text of a note that doesn't count for good, as it is told, and typed again.
import { join } from "./bytes.js";
import { passagesOf } from "./passages.js";
import { readable } from "./shared.js";

/** @typedef {{ site: number, own: boolean, characters: number, messages: number, text: string }} LeftOut */

/** @param {import("./sayings.js").LeftOut} lost @param {boolean} isOwn */
const passagesIn = ({ branches }, isOwn) => branches.flatMap((branch) => passagesOf(branch.map(({ one }) => one), isOwn));

/** What this browser's user typed of it, where it can be typed again.
 * @param {import("./sayings.js").Sayings} sayings @param {import("./sayings.js").LeftOut[]} lost */
export const passagesOfOwn = (sayings, lost) => lost.flatMap((one) => passagesIn(one, true)).map(({ cause, ...one }) => (
  { cause: cause && sayings.isLost(cause) ? undefined : cause, ...one }));

/** What is told of it.
 * @param {import("./sayings.js").LeftOut} lost @param {boolean} own whether this browser's user typed it
 * @returns {LeftOut} */
export function toldOfLost(lost, own) {
  const text = readable(join(...passagesIn(lost, own).map(({ bytes }) => bytes)));
  const messages = lost.branches.flat().reduce((sum, { one }) => sum + one.size, 0);
  return { site: lost.line.site, own, characters: [...text].length, messages, text };
}

/** What this browser's user is told as more of his text is left out.
 * @param {number} many how many characters */
export const leftOutInWords = (many) => (
  `Left out, since others hold its place: ${many.toLocaleString("en")} ${many === 1 ? "character" : "characters"} of you. `
  + "History shows that at its end, and types it again.");

/** What its author says who has made it anew, up to the last message of each branch.
 * @param {import("./sayings.js").Sayings} sayings @param {import("./sayings.js").LeftOut[]} lost
 * @returns {Promise<import("./own.js").Word[]>} */
export function wordsOf(sayings, lost) {
  return Promise.all(lost.flatMap(({ line, branches }) => branches.map(async (branch) => (
    { author: line.author, site: line.site, text: line.text, before: await sayings.lastOf(line, branch) }))));
}
