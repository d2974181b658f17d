// Which cards stand in the margin, and in which order.
import { Card } from "./card.js";
import { button, made } from "./shown.js";

/* global CodeMirror */

// The most cards beside the text.
const MOST_CARDS = 60;

export class Cards {
  // What is being written.
  drafts = [];
  // The thread's id, or the draft, that is looked at.
  active;
  #editor;
  #threads;
  #stretches;
  #told;
  #cards = new Map();
  #more;
  #rest = made("p", "", "rest");

  /** `told` is told what cards are. */
  constructor(editor, threads, stretches, told) {
    [this.#editor, this.#threads, this.#stretches, this.#told] = [editor, threads, stretches, told];
    this.#more = button("Show more", () => threads.more());
  }

  /** The card of a thread, where it is shown. */
  of(id) {
    return this.#cards.get(id);
  }

  /** Whether something is written in one of them. */
  get haveWords() {
    return [...this.drafts, ...this.#cards.values()].some((one) => one.hasWords);
  }

  /** What is looked at, as an element. */
  get #fixed() {
    return this.active?.element ?? this.#cards.get(this.active)?.element;
  }

  /** The ids of threads that are shown whatever becomes of them, since somebody is at them. */
  kept() {
    return [...this.#cards].filter(([, card]) => isKept(card)).map(([id]) => id);
  }

  /** What is to stand in the margin, and where, and whether that is a list. */
  items(isList) {
    const { list, inSight, hasMore, many, kept } = this.#threads;
    const inView = isList ? list : this.#inView(inSight);
    const threads = new Map(inView.slice(0, isList ? undefined : MOST_CARDS).map((one) => [one.id, one]));
    for (const [id, card] of this.#cards) {
      if (!threads.has(id) && isKept(card)) threads.set(id, kept.get(id) ?? inSight.find((one) => one.id === id) ?? card.thread);
    }
    for (const id of [...this.#cards.keys()]) if (!threads.has(id)) this.#cards.delete(id);
    const placed = [...this.drafts.map((one) => [one.element, () => one.place()]), ...[...threads.values()].map((one) => this.#drawn(one))];
    const left = isList ? 0 : Math.max(0, inView.length - MOST_CARDS) + Math.max(0, many - inSight.length);
    this.#rest.textContent = `${left} more are in the list.`;
    const after = [...(isList && hasMore ? [this.#more] : []), ...(left && !this.#threads.author ? [this.#rest] : [])];
    return { items: [...(isList ? placed : sorted(placed)), ...after.map((it) => [it, () => undefined])], isList, fixed: this.#fixed };
  }

  #inView(threads) {
    const [first, last] = this.#editor.inSight(0);
    return threads.filter(({ id }) => {
      const place = this.#stretches.placeOf(id);
      return place && place.to.line >= first.line && place.from.line <= last.line;
    });
  }

  /** A thread's card, as it is now, and where it belongs. */
  #drawn(thread) {
    const { id } = thread;
    if (!this.#cards.has(id)) this.#cards.set(id, new Card(thread, this.#told));
    const card = this.#cards.get(id);
    card.draw(thread, this.active === id || card.isBusy);
    return [card.element, () => this.#stretches.placeOf(id)];
  }
}

/** Whether somebody is at a card. */
function isKept(card) {
  return card.isBusy || card.element.contains(document.activeElement);
}

/** In the order of their places; what has none comes last. */
function sorted(items) {
  const places = new Map(items.map(([it, place]) => [it, place()?.from]));
  return items.sort(([one], [other]) => {
    const [first, second] = [places.get(one), places.get(other)];
    return first && second ? CodeMirror.cmpPos(first, second) : Number(!first) - Number(!second);
  });
}
