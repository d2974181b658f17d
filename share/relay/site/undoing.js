// What an editor can take back of its own edits, and do again, by the characters' names: nobody else's text is touched.

/** @typedef {import("./shared.js").Change} Change */
/** @typedef {import("./shared.js").Step} Step */

// The silence that ends an edit, and how many keys an edit has at most.
const [PAUSE_MS, MOST_KEYS] = [1_000, 20];

/** @param {Step} step */
const isEmpty = ({ came, went, looked }) => !came.length && !went.length && !looked.length;

export class Undoing {
  #clock;
  /** @type {Step[]} */
  #done = [];
  /** @type {Step[]} */
  #undone = [];
  // Where the last key left the cursor, whether it deleted, how many keys are one edit by now, and when the last one came.
  /** @type {number | null} */
  #end = null;
  #deleted = false;
  #keys = 0;
  #last = 0;

  constructor(clock = () => performance.now()) {
    this.#clock = clock;
  }

  /** Notes an edit, perhaps as one with the one before it: where it deleted `old` at its first change.
   * @param {Change[]} changes @param {string} old @param {Step} step @param {unknown} told */
  made(changes, old, step, told) {
    const last = this.#joins(changes, old, told) ? this.#done.pop() : undefined;
    this.add(last ? { came: [...last.came, ...step.came], went: [...last.went, ...step.went], looked: last.looked } : step);
  }

  /** Notes an edit that no other one goes on from.
   * @param {Step} step */
  add(step) {
    if (isEmpty(step)) return;
    this.#done.push(step);
    this.#undone = [];
  }

  /** Takes over where the cursor is: elsewhere another edit begins.
   * @param {number} at */
  cursorIs(at) {
    if (at !== this.#end) this.#end = null;
  }

  /** Moves along with others' changes.
   * @param {Change[]} changes */
  moved(changes) {
    for (const [begin, end, text] of changes) {
      if (this.#end !== null && begin < this.#end) this.#end = Math.max(begin, this.#end - (end - begin)) + text.length;
    }
  }

  /** Takes the last edit back, or does it again; what that changed, if there was one.
   * @param {boolean} isRedo @param {(step: Step) => Step} takesBack gives what that changed */
  undo(isRedo, takesBack) {
    const [from, to] = isRedo ? [this.#undone, this.#done] : [this.#done, this.#undone];
    this.#end = null;
    for (let step = from.pop(); step; step = from.pop()) {
      const changed = takesBack(step);
      if (isEmpty(changed)) continue;
      to.push(changed);
      return changed;
    }
    return null;
  }

  /** Forgets all. */
  forget() {
    [this.#done, this.#undone, this.#end] = [[], [], null];
  }

  /** @param {Change[]} changes @param {string} old @param {unknown} told */
  #joins(changes, old, told) {
    const [[begin, end, text]] = changes;
    const [now, deletes] = [this.#clock(), !text];
    const many = changes.length === 1 ? [...(text || old)].length : 0;
    const keys = !old || many === 1 ? many : 0;
    const goesOn = !(old && text) && keys > 0 && keys <= MOST_KEYS - this.#keys && deletes === this.#deleted
      && now - this.#last <= PAUSE_MS && this.#end !== null && [begin, end].includes(this.#end);
    const joins = typeof told === "boolean" ? told : goesOn;
    this.#keys = (joins ? this.#keys : 0) + (keys || MOST_KEYS);
    [this.#deleted, this.#last] = [deletes, now];
    this.#end = changes.some(([, , put]) => put.includes("\n")) ? null : begin + text.length;
    return joins;
  }
}
