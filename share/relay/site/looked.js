// When this browser's user looked at a note, and how much of it counted then.

/** @typedef {import("./store.js").Look} Look */

// How soon it is kept that something was looked at; and after how long away a user has looked before.
const [SOON_MS, AWAY_MS] = [1_000, 300_000];

export class Looked {
  /** The look of before.
   * @type {Look | null} */
  last;
  #store;
  #id;
  #fronts;
  /** @type {Look | null} */
  #kept = null;
  /** @type {ReturnType<typeof setTimeout> | undefined} */
  #timer;
  #ends = new AbortController();

  /** @param {import("./store.js").Store} store @param {import("./store.js").Note} note
   * @param {() => [number, number][] | undefined} fronts how many messages of each site count now, where the text is shown */
  constructor(store, { id, looked }, fronts) {
    [this.#store, this.#id, this.#fronts, this.last] = [store, id, fronts, looked ?? null];
    document.addEventListener("visibilitychange", () => this.#turned(), { signal: this.#ends.signal });
  }

  /** Something is shown. */
  shows() {
    if (!document.hidden) this.#timer ??= setTimeout(() => this.#keep(), SOON_MS);
  }

  close() {
    this.#ends.abort();
    clearTimeout(this.#timer);
  }

  #turned() {
    if (document.hidden) this.#keep();
    else if (this.#kept && Date.now() - 1_000 * this.#kept.time >= AWAY_MS) this.last = this.#kept;
  }

  #keep() {
    clearTimeout(this.#timer);
    this.#timer = undefined;
    const fronts = this.#fronts();
    if (!fronts) return;
    this.#kept = { time: Math.floor(Date.now() / 1_000), fronts };
    // Where it can't be kept more than that has changed next time.
    this.#store.keep(this.#id, [], { looked: this.#kept }).catch(() => {});
  }
}
