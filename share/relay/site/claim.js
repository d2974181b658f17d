// A number that one may type under is searched for in a worker, so that nobody who types waits.
import { Trouble, random } from "./bytes.js";
import { ZERO_BITS } from "./rank.js";
import { workerOf } from "./trusted.js";

/** A counter by which an author has a number that isn't taken; `ends` breaks the search off, which loses nothing.
 * @param {Uint8Array} note @param {Uint8Array} author @param {Set<number>} taken @param {AbortSignal} [ends]
 * @param {number} [zeroBits] @returns {Promise<{ counter: bigint, site: number }>} */
export function claimFor(note, author, taken, ends, zeroBits = ZERO_BITS) {
  const worker = workerOf(new URL("./searching.js", import.meta.url));
  // From anywhere on, so that two searches of one author seldom try the same.
  const begin = new DataView(random(8).buffer).getBigUint64(0);
  const found = new Promise((done, failed) => {
    worker.onmessage = ({ data }) => done(data);
    worker.onerror = () => failed(new Trouble("No number can be searched for in this browser."));
    const breaksOff = () => failed(new Trouble("The search for a number was broken off."));
    ends?.addEventListener("abort", breaksOff);
    if (ends?.aborted) breaksOff();
    worker.postMessage({ note, author, taken, begin, zeroBits });
  });
  return found.finally(() => worker.terminate());
}
