// A note as one file: its link, by which whoever has the file reads and writes, and its entries as a log has them, each after its length.
// bin/note recover reads it, and bin/note export writes it.
import { Trouble, equal, join, number, numberAt } from "./bytes.js";

const BEGIN = join("vialshoal note 2\n");
// What the page saved before: entries alone.
const BEGIN_OF_LOG = join("vialshoal log 2\n");
const [LINE_END, MOST_LINK] = [10, 1_000];

/** @param {string} link @param {Uint8Array[]} raws */
export const fileOf = (link, raws) => new Blob([BEGIN, join(link, [LINE_END]), ...raws.flatMap((raw) => [number(raw.length, 4), raw])]);

/** What a file has, of which nothing was looked at, up to where it was cut short.
 * @param {Uint8Array} bytes @returns {{ link: string, raws: Uint8Array[], isWhole: boolean }} */
export function savedIn(bytes) {
  const isLog = equal(bytes.slice(0, BEGIN_OF_LOG.length), BEGIN_OF_LOG);
  const end = isLog ? BEGIN_OF_LOG.length - 1 : bytes.subarray(0, BEGIN.length + MOST_LINK).indexOf(LINE_END, BEGIN.length);
  if (end < 0 || (!isLog && !equal(bytes.slice(0, BEGIN.length), BEGIN))) throw new Trouble("That file isn't a saved note.");
  const raws = [];
  for (let at = end + 1; at < bytes.length;) {
    const next = at + 4 + numberAt(bytes, at, 4);
    if (next > bytes.length) return { link: linkIn(bytes, isLog, end), raws, isWhole: false };
    raws.push(bytes.slice(at + 4, next));
    at = next;
  }
  return { link: linkIn(bytes, isLog, end), raws, isWhole: true };
}

/** @param {Uint8Array} bytes @param {boolean} isLog @param {number} end */
const linkIn = (bytes, isLog, end) => (isLog ? "" : new TextDecoder().decode(bytes.slice(BEGIN.length, end)));
