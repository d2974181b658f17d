// A text in CodeMirror that a user and others change: what the user changes is handed on as positions, what others change is shown.
import { opensLine } from "./client.js";
import { Places } from "./places.js";

/* global CodeMirror */

// A character of two halves.
const PAIR = /^[\ud800-\udbff][\udc00-\udfff]$/;

/** Where two texts begin to differ, and where that ends in each of them. */
export function difference(before, now) {
  const most = Math.min(before.length, now.length);
  let begin = 0;
  while (begin < most && before[begin] === now[begin]) begin += 1;
  let same = 0;
  while (same < most - begin && before[before.length - 1 - same] === now[now.length - 1 - same]) same += 1;
  return [begin, before.length - same, now.length - same];
}

/** Adds a change to those of one edit; what goes on where the last one ended becomes one with it. */
function gather(changes, begin, end, text) {
  const last = changes.at(-1);
  if (last && begin === end && begin === last[0] + last[2].length) last[2] += text;
  else if (begin !== end || text) changes.push([begin, end, text]);
}

/** The character that a place is inside of, if it is inside of one. */
function inside(cm, { line, ch }) {
  const around = cm.getLine(line).slice(Math.max(0, ch - 1), ch + 1);
  return PAIR.test(around) ? around : "";
}

/**
 * Has a change be of whole characters. CodeMirror compares what it reads back from the browser half by half, and two emoji often
 * have one half in common.
 */
function whole(cm, places, change) {
  const [first, last] = [change.from, change.to].map((place) => inside(cm, place));
  if (!first && !last) return;
  const [begin, end] = [places.of(change.from) - first.length / 2, places.of(change.to) + last.length / 2];
  const text = first.slice(0, 1) + change.text.join("\n") + last.slice(1);
  const [old, now] = [cm.getRange(places.at(begin), places.at(end)), text].map((one) => [...one]);
  const [from, to, upTo] = difference(old, now);
  const after = (many) => places.at(begin + old.slice(0, many).join("").length);
  change.update(after(from), after(to), now.slice(from, upTo).join("").split("\n"));
}

export class Edited {
  // What the user's command has changed until now.
  #gathered = [];
  #isOwn = true;
  #told;

  /**
   * `told` is told of `edit(changes)`, `moved()` and, of what others change, `changed(place)`; where it `takes(change)` the user's change
   * isn't made.
   */
  constructor(cm, told) {
    this.cm = cm;
    this.places = new Places(cm);
    this.#told = told;
    cm.on("beforeChange", (_, change) => {
      if (!this.#isOwn) return;
      whole(cm, this.places, change);
      if (told.takes?.(change)) {
        change.cancel();
        return;
      }
      const { from, to, text } = change;
      const end = this.places.of(to);
      gather(this.#gathered, this.places.of(from), end, text.join("\n"));
    });
    cm.on("changes", () => this.tell());
    cm.on("cursorActivity", () => { if (this.#isOwn) told.moved(); });
  }

  /** Hands on what was changed until now, also in the midst of a command: what is asked then comes after it. */
  tell() {
    const changes = this.#gathered;
    this.#gathered = [];
    if (changes.length) this.#told.edit(changes);
  }

  get text() {
    return this.cm.getValue();
  }

  /** Where the user's cursor is, and the other end of a selection, if there is one. */
  place() {
    const [at, anchor] = ["head", "anchor"].map((end) => this.places.of(this.cm.getCursor(end)));
    return at === anchor ? [at] : [at, anchor];
  }

  /** Shows changes of others, or an undo of the user's, which puts the cursor somewhere. */
  change(changes, cursor) {
    this.#shows(() => {
      for (const [begin, end, text] of changes) {
        this.#put(text, this.places.at(begin), this.places.at(end));
        if (cursor === undefined) this.#told.changed(this.places.at(begin));
      }
      if (cursor !== undefined) this.cm.setCursor(this.places.at(cursor));
    });
  }

  /**
   * Has a text stand in the place of another. What comes in just after a cursor or a selection doesn't move that; but a cursor at a
   * line's begin goes with the line, where there is one.
   */
  #put(text, from, to) {
    const before = this.cm.listSelections();
    const isEmpty = this.cm.lastLine() === 0 && this.cm.getLine(0) === "";
    const opens = !isEmpty && CodeMirror.cmpPos(from, to) === 0 && opensLine(from.ch, text);
    const stays = (range, place) => !(opens && range.empty())
      && [place, range.to()].every((one) => CodeMirror.cmpPos(one, from) === 0);
    this.cm.replaceRange(text, from, to);
    const after = this.cm.listSelections();
    if (after.length !== before.length || !before.some((range) => stays(range, range.to()))) return;
    this.cm.setSelections(after.map(({ anchor, head }, at) => ({
      anchor: stays(before[at], before[at].anchor) ? from : anchor,
      head: stays(before[at], before[at].head) ? from : head,
    })), undefined, { scroll: false });
  }

  /** Shows another text, and leaves what is the same as it is; which changes that takes. */
  replace(text) {
    const [begin, end, upTo] = difference(this.text, text);
    const changes = end > begin || upTo > begin ? [[begin, end, text.slice(begin, upTo)]] : [];
    if (changes.length) this.change(changes);
    return changes;
  }

  #shows(does) {
    this.#isOwn = false;
    try {
      this.cm.operation(does);
    } finally {
      this.#isOwn = true;
    }
  }
}
