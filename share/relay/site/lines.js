// Threads of a margin as a page is told them, as share/engine/thread_lines.py has it. What is false or empty isn't said.
import { clean } from "./presence.js";
import { MOST_SELECTED, lengthOf } from "./record.js";

/** @typedef {import("./marginal.js").Thread} Thread */
/** @typedef {import("./marginal.js").Remark} Remark */
/** A thread, and where it is; and of one that holds what was selected then, and what it suggests instead, readable.
 * @typedef {{ thread: Thread, spot: import("./spots.js").Spot, then: string, put: string }} Stood */
/** What else is to be known: the text, and whether a number is this browser's.
 * @typedef {{ text: import("./shared.js").SharedText, isOwn: (site: number) => boolean }} ToldTo */

// The most threads of an answer, the most characters of what it has of bodies, and of a thread's replies; and for how many characters all
// else of a remark stands.
export const MOST_PAGE = 2_000;
const [MOST_OF_BODIES, MOST_REPLIED, BESIDE_A_BODY] = [4_000_000, 500_000, 300];

/** Threads as lines; as many as an answer has room for, one at least.
 * @param {Stood[]} found @param {ToldTo} told */
export function threadLines(found, told) {
  /** @type {any[]} */
  const lines = [];
  let said = 0;
  for (const one of found) {
    const line = threadLine(one, told);
    said += [line, ...line.replies ?? []].reduce((many, part) => many + sizeOf(part), 0);
    if (lines.length && said > MOST_OF_BODIES) break;
    lines.push(line);
  }
  return lines;
}

/** @param {any} line */
const sizeOf = ({ body = "", text = "", new: put = "" }) => BESIDE_A_BODY + lengthOf(body) + lengthOf(text) + lengthOf(put);

/** @param {Stood} one @param {ToldTo} told */
function threadLine({ thread, spot, then, put }, told) {
  const { kind, anchor } = thread;
  const state = thread.state === null ? "taken" : spot.isAccepted ? "accepted" : thread.state;
  const { begin, end } = spot;
  return said({ ...remark(thread.first, told), kind, state, text: spot.holds ? then : anchor.text,
    ...(begin === null ? {} : { begin: told.text.unitAt(begin), end: told.text.unitAt(end) }),
    gone: spot.isGone, elsewhere: !spot.holds, changed: spot.isChanged && !spot.isAccepted,
    new: kind === "suggestion" && spot.holds ? put : "", replies: replies(thread.replies, told) });
}

/** The last replies, as many as there is room for.
 * @param {Remark[]} some @param {ToldTo} told */
function replies(some, told) {
  /** @type {any[]} */
  const found = [];
  let many = 0;
  for (const reply of [...some].reverse()) {
    many += lengthOf(reply.body ?? "") + BESIDE_A_BODY;
    if (many > MOST_REPLIED) break;
    found.push(said({ ...remark(reply, told), taken: reply.body === null }));
  }
  return found.reverse();
}

/** @param {Remark} one @param {ToldTo} told */
const remark = ({ id, site, by, time, body, isRevised }, { isOwn }) => (
  { id, site, name: clean(by), own: isOwn(site), time, body: body ?? "", revised: isRevised });

/** A line without what is false or empty.
 * @param {Record<string, any>} line */
const said = (line) => Object.fromEntries(Object.entries(line).filter(([, value]) => value !== false && value?.length !== 0));

/** What was selected, of a passage's begin.
 * @param {string} text */
export const beginOf = (text) => [...text].slice(0, MOST_SELECTED).join("");
