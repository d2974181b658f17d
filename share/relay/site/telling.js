// What a page is told of a note: its text's changes, how things are, who is where.
import { errorOf } from "./shared.js";
import { stateOf } from "./standing.js";

/** What a page is told, as by the connection to a local engine.
 * @typedef {{ came: (line: any) => void, ended: (words: string) => boolean, isBusy: () => boolean, waits: (many: number) => void,
 *   settles: () => void }} Told */
/** @typedef {import("./shared.js").Change} Change */

// The most stretches that are shown in looks, and how soon it is told where others are.
const [MOST_DRESSED, SOON_MS] = [20_000, 30];

export class Telling {
  version = 0;
  // How many edits the page has made, and of how many it was answered what became of them.
  edits = 0;
  isOpen = false;
  #kept = 0;
  // Why edits were refused that aren't answered yet, by their numbers.
  /** @type {Map<number, object>} */
  #refused = new Map();
  #told;
  #whole;
  #people;
  // What it was told last: how things are, the looks, and the cursors; and when it is told others.
  #state = "";
  #looks = "[]";
  #cursors = "[]";
  /** @type {ReturnType<typeof setTimeout> | undefined} */
  #later;

  /** @param {Told} told @param {import("./whole.js").Whole} whole @param {import("./peopled.js").People} people */
  constructor(told, whole, people) {
    [this.#told, this.#whole, this.#people] = [told, whole, people];
  }

  /** The note was opened: nothing was told by now. */
  begin() {
    [this.isOpen, this.version, this.edits, this.#kept, this.#state, this.#looks, this.#cursors] = [true, 0, 0, 0, "", "[]", "[]"];
    this.#refused.clear();
  }

  close() {
    this.isOpen = false;
    clearTimeout(this.#later);
  }

  /** Whether the page isn't ready for what others changed. */
  isBusy() {
    if (!this.isOpen) return false;
    if (this.#told.isBusy()) this.#told.waits(1);
    return this.#told.isBusy();
  }

  /** @param {Change[]} changes @param {object} more */
  changes(changes, more = {}) {
    this.#notice("changes", { changes, ...more });
  }

  /** The whole text, as it is. */
  text() {
    const { text } = this.#whole;
    if (this.isOpen && text) this.#notice("text", { text: text.slice() });
  }

  /** How many threads there are, and how many are open; each may be otherwise than it was.
   * @param {number} all @param {number} open */
  counted(all, open) {
    if (this.isOpen) this.#told.came({ notice: "remarks", all, open });
  }

  /** What went wrong.
   * @param {unknown} why */
  says(why) {
    if (this.isOpen) this.#told.came({ notice: "says", words: errorOf(why).words });
  }

  /** All up to an edit is on the disk, except the edits that were refused: each of these is answered in its turn.
   * @param {number} edits */
  answer(edits) {
    for (const [refused, why] of this.#refused) {
      if (refused > Math.max(edits, this.#kept) + 1) break;
      this.#refused.delete(refused);
      this.#answers(refused - 1);
      this.#answers(refused, why);
    }
    this.#answers(edits);
  }

  /** An edit was refused, of which nothing is done. That is answered after the edits before it.
   * @param {number} edits @param {object} why */
  refuses(edits, why) {
    this.#refused.set(edits, why);
    this.answer(this.#kept);
  }

  /** What was done since isn't on the disk, and is taken out.
   * @param {string} words */
  unkept(words) {
    this.#refused.clear();
    if (this.edits > this.#kept) this.#answers(this.edits, { error: "unkept", words });
    else if (this.isOpen) this.#told.came({ notice: "says", words });
  }

  /** @param {number} edits @param {object} why none where all up to this edit is on the disk */
  #answers(edits, why = {}) {
    if (edits <= this.#kept || !this.isOpen) return;
    this.#kept = edits;
    this.#told.came({ answer: "edit", edits, ...why });
  }

  /** Tells how things are, where that has changed. */
  stands() {
    clearTimeout(this.#later);
    if (!this.isOpen) return;
    const line = stateOf(this.#whole.followed.standing, this.#whole, this.#people.many);
    const state = JSON.stringify(line);
    if (state !== this.#state) this.#told.came({ notice: "state", ...line });
    this.#state = state;
    this.#later = setTimeout(() => (this.isBusy() ? this.stands() : this.#tellPlaces()), SOON_MS);
  }

  /** A notice by which the text's version rises.
   * @param {string} notice @param {object} more */
  #notice(notice, more) {
    this.version += 1;
    this.#told.came({ notice, version: this.version, edits: this.edits, ...more });
  }

  /** Tells where others are, and which looks there are, where that has changed. */
  #tellPlaces() {
    const { text } = this.#whole;
    if (!text || !this.isOpen) return;
    const cursors = this.#people.cursors(text);
    if (this.#cursors !== (this.#cursors = JSON.stringify(cursors))) this.#told.came({ notice: "cursors", edits: this.edits, cursors });
    const looks = text.dressed(MOST_DRESSED);
    if (this.#looks !== (this.#looks = JSON.stringify(looks))) this.#notice("looks", { looks });
  }
}
