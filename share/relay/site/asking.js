// What a page asks of a note's text: who is on, who wrote what, how it came to be, and what has changed.
import { changedSince, shownOf } from "./former.js";
import { Wrong } from "./shared.js";

/** @typedef {import("./shared.js").SharedText} SharedText */

export class Asking {
  #whole;
  #people;
  #telling;
  #looked;
  #suggested;
  /** The history as it was asked for last.
   * @type {import("./history.js").History | null} */
  #history = null;

  /** @param {import("./whole.js").Whole} whole @param {import("./peopled.js").People} people
   * @param {import("./telling.js").Telling} telling @param {import("./looked.js").Looked} looked
   * @param {() => Promise<import("./value.js").Names[]>} suggested what is suggested */
  constructor(whole, people, telling, looked, suggested) {
    [this.#whole, this.#people, this.#telling, this.#looked, this.#suggested] = [whole, people, telling, looked, suggested];
  }

  /** Who is on. */
  on() {
    return { people: this.#people.on(this.#whole.own.number?.site ?? 0) };
  }

  /** @param {SharedText} text @param {any} line */
  who(text, { begin, end }) {
    return { edits: this.#telling.edits, stretches: this.#named(text.wrote(begin, end)) };
  }

  /** @param {any} line */
  async history({ from = 0 }) {
    const { length, steps } = this.#history = await this.#whole.history(await this.#suggested());
    const { leftOut } = this.#whole;
    return { length, steps: this.#named(steps.filter(({ begin }) => begin >= from)),
      ...(leftOut.length ? { left_out: leftOut, recovers: leftOut.some(({ own }) => own) } : {}) };
  }

  /** @param {SharedText} text @param {any} line */
  past(text, { at }) {
    const { text: was, stretches } = shownOf(text.past(this.#frontsAt(at)));
    return { at, text: was, stretches: this.#named(stretches) };
  }

  /** @param {SharedText} text @param {any} line */
  changed(text, { since }) {
    const look = since === "looked" ? this.#looked.last : { time: since.at, fronts: this.#frontsAt(since.at) };
    const { came, went } = changedSince(text.past(look?.fronts ?? []), text);
    return { edits: this.#telling.edits, since: look?.time ?? 0, came: this.#named(came), went: this.#named(went) };
  }

  /** @param {unknown} at */
  #frontsAt(at) {
    const history = this.#history;
    if (!history || !Number.isInteger(at) || Number(at) > history.length) throw new Wrong("outside", "The history doesn't go there.");
    return history.frontsAt(Number(at));
  }

  /** With what their writers are called.
   * @template {{ site: number }} Of @param {Of[]} found */
  #named(found) {
    return this.#people.named(found, this.#whole);
  }
}
