// What is gathered where typing suggests, as a key would change the text. All editors join it so; share/engine/vectors has the cases.
import { withoutLast } from "./graphemes.js";

/* global CodeMirror */

// What a key that takes more than a sign takes back of what was typed.
const LAST_WORD = /(\S+\s*|\s+)$/u;
const isBefore = (one, other) => CodeMirror.cmpPos(one, other) < 0;
const isSame = (one, other) => CodeMirror.cmpPos(one, other) === 0;

/** What is gathered with a change besides, and where the cursor is then. */
function joined(at, { from, to, put, back }) {
  if (at && back && !put && at.put && isSame(to, at.to)) {
    // What was typed is seen behind the stretch, and is taken back first.
    return [{ ...at, put: back === 1 ? withoutLast(at.put) : at.put.replace(LAST_WORD, "") }, at.to];
  }
  const one = { from: at && isBefore(at.from, from) ? at.from : from, to: at && isBefore(to, at.to) ? at.to : to, put: (at?.put ?? "") + put };
  return [one, put ? one.to : back ? from : to];
}

/**
 * What is gathered once a change is added, undefined where that is nothing; where the cursor is then; and whether what was gathered before
 * is a suggestion of its own. Of a change that deletes backwards `back` is how many signs that would take.
 */
export function gathered(before, change) {
  const isElsewhere = before !== undefined && (isBefore(before.to, change.from) || isBefore(change.to, before.from));
  const [one, cursor] = joined(isElsewhere ? undefined : before, change);
  return { now: isSame(one.from, one.to) && !one.put ? undefined : one, cursor, isElsewhere };
}
