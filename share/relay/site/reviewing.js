// What a page asks about a note's margin: what is remarked and suggested where, as share/engine/reviewing.py has it.
import { MOST_PAGE, threadLines } from "./lines.js";
import { byKey } from "./marginal.js";
import { NoteMargin } from "./notemargin.js";
import { Remarking, noThread } from "./remarking.js";
import { OTHER_TEXT, Wrong } from "./shared.js";
import { meets } from "./spots.js";

/** @typedef {import("./shared.js").SharedText} SharedText */
/** @typedef {import("./marginal.js").Entered} Entered */
/** @typedef {ReturnType<NoteMargin["stood"]>[number]} Placed */

/** The requests about a margin. */
export const ABOUT_MARGIN = new Set(["remarks", "remark", "suggest", "reply", "resolve", "reopen", "reject", "revise", "withdraw",
  "accept"]);
const CHANGED = "The passage has changed since this was shown, so nothing was done. Accept it again if it may become what is shown now.";
// How soon it is looked whether something is otherwise in the margin.
const SOON_MS = 200;

export class Reviewing {
  #whole;
  #telling;
  #typing;
  #margin;
  #remarking;
  // What was told last of how all stands; and when that is looked at again.
  #told = "";
  /** @type {ReturnType<typeof setTimeout> | undefined} */
  #timer;

  /** @param {import("./whole.js").Whole} whole @param {import("./telling.js").Telling} telling @param {import("./typing.js").Typing} typing
   * @param {import("./peopled.js").People} people */
  constructor(whole, telling, typing, people) {
    [this.#whole, this.#telling, this.#typing] = [whole, telling, typing];
    this.#margin = new NoteMargin(() => whole.counting);
    this.#remarking = new Remarking(whole, telling, typing, people, this.#margin);
  }

  /** The note was opened: nothing was told by now. */
  begin() {
    this.#told = "";
  }

  close() {
    clearTimeout(this.#timer);
    this.#timer = undefined;
  }

  /** Something came, or changed: tells soon how many threads there are, where one may be otherwise. */
  follows() {
    this.#timer ??= setTimeout(() => {
      this.#timer = undefined;
      this.#margin.look().then(() => this.#tells()).catch((why) => this.#telling.says(why));
    }, SOON_MS);
  }

  /** The replacements that are suggested. */
  async suggested() {
    await this.#margin.look();
    return this.#margin.said.suggested();
  }

  /** Does a request about the margin.
   * @param {SharedText} text @param {any} line @returns {Promise<object | (() => object)>} */
  does(text, line) {
    switch (line.do) {
      case "remarks": return this.#remarks(line);
      case "remark": return this.#remarking.remark(text, line);
      case "suggest": return this.#remarking.suggest(text, line);
      case "reply": return this.#remarking.reply(line);
      case "revise": return this.#remarking.revise(line);
      case "withdraw": return this.#remarking.withdraw(line);
      case "accept": return this.#accept(line);
      default: return this.#remarking.state(line);
    }
  }

  /** Which threads are there, once all is looked at.
   * @param {any} line */
  async #remarks({ version, begin, end, open, from = 0, most = MOST_PAGE }) {
    await this.#margin.look();
    return () => {
      const { text } = this.#whole;
      // The places that were asked for are gone.
      if (!text || version !== this.#telling.version) throw new Wrong("stale", OTHER_TEXT);
      const range = begin === undefined ? null : [text.byteOf(begin), text.byteOf(end)];
      const found = this.#inOrder(text).filter(({ isOpen, spot }) => (
        (!range || meets(spot, range[0], range[1])) && (open !== true || isOpen)));
      const some = found.slice(from, from + Math.min(most, MOST_PAGE)).map((one) => ({ ...one, thread: this.#margin.said.thread(one.id) }));
      const lines = threadLines(some, { text, isOwn: (site) => this.#whole.own.isOwn(site) });
      return { edits: this.#telling.edits, threads: lines, of: found.length };
    };
  }

  /** Shows what is suggested, and hides what it replaces, if the passage becomes what the page's user was shown: `becomes`, or without that what
   * was suggested for the passage as it was. Else nothing is done, and it is told what the passage would become.
   * @param {any} line */
  async #accept(line) {
    const id = await this.#remarking.thread(line);
    await this.#whole.kept();
    this.#typing.mayType();
    const text = /** @type {SharedText} */ (this.#whole.text);
    const [thread, found] = [this.#margin.said.thread(id), this.#margin.stood(text).find((one) => one.id === id)];
    if (!found || thread.kind !== "suggestion" || thread.state === null) throw noThread();
    const { spot, put } = found;
    if (!spot.holds || spot.begin === null) throw new Wrong("elsewhere", "The text that this is about isn't here.");
    if (spot.isAccepted) return { done: false };
    const { at } = thread.anchor;
    const { isAsSuggested, now, becomes } = becomesOf(text, spot, at, thread.new, put);
    if (line.becomes === undefined ? !isAsSuggested : line.becomes !== becomes) {
      throw new Wrong("changed", CHANGED, { was: await this.#margin.shown(at), now, new: put, becomes });
    }
    return { done: this.#typing.does(text, { came: at, went: thread.new, looked: [], accepts: id }) };
  }

  #tells() {
    const { text } = this.#whole;
    if (!text || !this.#telling.isOpen) return;
    const all = this.#margin.stood(text);
    const open = all.filter(({ isOpen }) => isOpen).length;
    const told = JSON.stringify([this.#margin.times, ...all.map(({ spot: { begin, end, hidden, isChanged, isAccepted, holds } }) => (
      [end - (begin ?? 0), hidden, isChanged, isAccepted, holds]))]);
    if (told !== this.#told && (all.length || this.#told)) this.#telling.counted(all.length, open);
    this.#told = told;
  }

  /** All threads in the order of their places; those that aren't here last.
   * @param {SharedText} text @returns {Placed[]} */
  #inOrder(text) {
    const key = (/** @type {Placed} */ { id }) => /** @type {Entered} */ (this.#margin.said.of(id));
    const place = (/** @type {Placed} */ { spot: { begin } }) => begin ?? Infinity;
    return this.#margin.stood(text).sort((one, other) => (
      place(one) === place(other) ? byKey(key(one), key(other)) : place(one) - place(other)));
  }
}

/** What a passage is, what it becomes if its replacement is shown and what that replaces is hidden, and whether that is as it was suggested.
 * The replacement may stand beside the passage, since its author may have typed it anywhere, and others something between.
 * @param {SharedText} text @param {import("./spots.js").Spot} spot @param {import("./value.js").Names[]} at what is replaced
 * @param {import("./value.js").Names[]} names those of the replacement @param {string} put */
function becomesOf(text, { begin, end, isChanged }, at, names, put) {
  const from = begin ?? 0;
  const { first, last } = text.placesOf(names);
  const [low, high] = [Math.min(first, from), Math.max(last, end)];
  return { isAsSuggested: !isChanged && low === from && high === end, now: text.between(low, high),
    becomes: text.replaced(low, high, at, names, put) };
}
