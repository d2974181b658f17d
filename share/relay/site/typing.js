// What a page's user does to a note's text.
import { Wrong, errorOf } from "./shared.js";
import { Undoing } from "./undoing.js";
import { NO_NUMBER } from "./whole.js";

/** @typedef {import("./shared.js").Change} Change */
/** @typedef {import("./shared.js").SharedText} SharedText */

export class Typing {
  #whole;
  #telling;
  #undoing = new Undoing();
  /** Is told whose acceptance of a suggestion was done again, or taken back.
   * @type {(id: string, isAccepted: boolean) => void} */
  accepted = () => {};

  /** @param {import("./whole.js").Whole} whole @param {import("./telling.js").Telling} telling */
  constructor(whole, telling) {
    [this.#whole, this.#telling] = [whole, telling];
  }

  /** The text was begun anew: nothing of before can be taken back. */
  begin() {
    this.#undoing.forget();
  }

  /** @param {Change[]} changes others' */
  moved(changes) {
    this.#undoing.moved(changes);
  }

  /** @param {any} line */
  edit({ version, edits, changes, join }) {
    const [{ text }, telling] = [this.#whole, this.#telling];
    const isNext = edits === telling.edits + 1;
    if (telling.isOpen) telling.edits = edits;
    try {
      if (!text || !telling.isOpen || !isNext) throw new Wrong("order", "That edit isn't the next one.");
      if (version !== telling.version) throw new Wrong("version", "That edit is of another text.");
      this.mayType();
      this.#make(text, changes, join);
      this.#whole.made(edits);
    } catch (why) {
      this.#whole.made(edits);
      telling.text();
      telling.refuses(edits, errorOf(why));
    }
  }

  /** @param {SharedText} text @param {any} line */
  undo(text, line) {
    if (!this.#whole.types || line.begin !== undefined) return { done: false };
    const isRedo = line.do === "redo";
    const step = this.#undoing.undo(isRedo, (one) => text.takeBack(one));
    if (step?.accepts) this.accepted(step.accepts, isRedo);
    this.#made(text);
    return { done: Boolean(step) };
  }

  /** Does what can be taken back by names, of which the page is told; whether that did something.
   * @param {SharedText} text @param {import("./shared.js").Step} step */
  does(text, step) {
    const done = text.takeBack(step);
    const isDone = done.came.length + done.went.length > 0;
    this.#undoing.add(done);
    if (isDone && step.accepts) this.accepted(step.accepts, true);
    this.#made(text);
    return isDone;
  }

  /** Types what is left out of the user's text.
   * @param {SharedText} text @param {import("./passages.js").Passage[]} passages */
  puts(text, passages) {
    this.mayType();
    this.#undoing.add(text.put(passages));
    this.#made(text);
  }

  /** Tells what was made for the page's user.
   * @param {SharedText} text */
  #made(text) {
    const changes = text.changed() ?? [];
    const last = changes[changes.length - 1];
    this.#undoing.moved(changes);
    if (last) this.#telling.changes(changes, { cursor: last[0] + last[2].length });
    this.#whole.made(this.#telling.edits);
  }

  /** @param {SharedText} text @param {any} line */
  look(text, { ranges, bold, colour }) {
    this.mayType();
    this.#undoing.add(text.look(ranges, { bold, colour }));
    this.#whole.made(this.#telling.edits);
    return {};
  }

  /** @param {SharedText} text @param {any} line */
  cursor(text, { version, at, anchor }) {
    if (version !== this.#telling.version) return {};
    this.#undoing.cursorIs(at);
    this.#whole.followed.presence.isAt(text.nameBefore(at), anchor === undefined ? null : text.nameBefore(anchor));
    return {};
  }

  /** Raises Wrong where nothing can be typed. */
  mayType() {
    const { failure } = this.#whole.own;
    if (failure) throw new Wrong("unkept", failure);
    if (!this.#whole.types) throw new Wrong("number", NO_NUMBER);
  }

  /** @param {SharedText} text @param {Change[]} changes @param {unknown} join */
  #make(text, changes, join) {
    const [first] = changes;
    if (!first) return;
    const old = text.slice(first[0], first[1]);
    const length = text.length + changes.reduce((sum, [begin, end, put]) => sum + put.length - (end - begin), 0);
    const steps = madeAll(text, changes);
    const [came, went] = [steps.flatMap((step) => step.came), steps.flatMap((step) => step.went)];
    this.#undoing.made(changes, old, { came, went, looked: [] }, join);
    // What is no character isn't kept as the editor has it.
    if (text.length !== length || changes.some(([, , put]) => /\p{Cs}/u.test(put))) this.#telling.text();
  }
}

/** Makes all changes of an edit, or none of them.
 * @param {SharedText} text @param {Change[]} changes */
function madeAll(text, changes) {
  /** @type {import("./shared.js").Step[]} */
  const steps = [];
  try {
    for (const change of changes) steps.push(text.edit(change));
  } catch (why) {
    // The editor keeps the words of an edit that is refused.
    for (const step of steps.reverse()) text.takeBack(step);
    text.changed();
    throw why;
  }
  return steps;
}
