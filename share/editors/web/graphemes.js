// A key takes or passes what is seen as one sign, as an emoji of several characters.

// What is looked at around a place, since a line may be very long.
const AROUND = 64;
// No sign that is in use has more characters; a longer one is taken in parts.
const MOST = 32;

const signs = "Segmenter" in Intl ? new Intl.Segmenter(undefined, { granularity: "grapheme" }) : undefined;

/** Whether a place in a line is between two signs. */
export function isBetween(line, ch) {
  if (!signs || ch <= 0 || ch >= line.length) return true;
  const begin = Math.max(0, ch - AROUND);
  return signs.segment(line.slice(begin, ch + AROUND)).containing(ch - begin)?.index === ch - begin;
}

/** A text without its last sign. */
export function withoutLast(text) {
  const end = text.slice(-AROUND);
  const last = signs ? [...signs.segment(end)].at(-1)?.segment : [...end].at(-1);
  return text.slice(0, text.length - (last?.length ?? 0));
}

/** Does what moves the cursors by a character, until all of them are between two signs. */
function passes(cm, does) {
  const isIn = () => cm.listSelections().some(({ head }) => !isBetween(cm.getLine(head.line), head.ch));
  cm.operation(() => {
    for (let times = 0; times === 0 || (times < MOST && isIn()); times += 1) does();
  });
}

/** Deletes a sign before each cursor, or after it; or what is selected. */
function takes(cm, command, by) {
  if (cm.somethingSelected() || cm.isReadOnly()) {
    cm.execCommand(command);
    return;
  }
  cm.operation(() => {
    cm.setSelections(cm.listSelections().map(({ head }) => ({ anchor: head, head: past(cm, head, by) })), undefined, { scroll: false });
    cm.replaceSelection("", "end", "+delete");
  });
}

/** The place past the next sign. */
function past(cm, from, by) {
  let place = cm.findPosH(from, by, "char", false);
  for (let times = 0; times < MOST && place.line === from.line && !isBetween(cm.getLine(place.line), place.ch); times += 1) {
    place = cm.findPosH(place, by, "char", false);
  }
  return place;
}

/** What a key does that moves the cursor, and with Shift selects. */
function moves(command) {
  return Object.assign((cm) => passes(cm, () => cm.execCommand(command)), { motion: true });
}

/** What keys do. */
export const SIGN_KEYS = {
  Backspace: (cm) => takes(cm, "delCharBefore", -1),
  "Shift-Backspace": (cm) => takes(cm, "delCharBefore", -1),
  Delete: (cm) => takes(cm, "delCharAfter", 1),
  Left: moves("goCharLeft"),
  Right: moves("goCharRight"),
};
