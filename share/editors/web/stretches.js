// What remarks and suggestions are about, marked in the text. A mark that goes has its line drawn anew, so what is the same stays.
import { made, plainText, short } from "./shown.js";

/* global CodeMirror */

// So much of a replacement is shown in the text; its card has it all.
const MOST_PUT = 400;

/** How a stretch is marked: what is to stand there instead is no part of the text, but of its look. */
function howOf({ id, className, put }) {
  const attributes = put ? { "data-put": short(plainText(put), MOST_PUT) } : {};
  return { className: `remarked ${className}`, attributes, endStyle: put ? "put" : "", clearWhenEmpty: false, thread: id };
}

/** What is seen of a place, which has no characters of its own. */
function spot({ className, put }) {
  const it = made("span", "", `remarked spot ${className} ${put ? "put" : ""}`);
  if (put) it.dataset.put = short(plainText(put), MOST_PUT);
  return it;
}

/** Marks a stretch, or a place. */
export function mark(cm, from, to, how) {
  if (CodeMirror.cmpPos(from, to)) return cm.markText(from, to, howOf(how));
  return Object.assign(cm.setBookmark(from, { widget: spot(how) }), { thread: how.id });
}

/** From where to where a mark goes. */
export function placeOf(marked) {
  const found = marked.find();
  if (!found) return undefined;
  return "from" in found ? found : { from: found, to: found };
}

export class Stretches {
  #editor;
  // The marks by their threads, and how they look.
  #shown = new Map();
  #looked;
  #over;
  #isLost;

  /** `isLost` is called where a stretch has lost its text: where that is back before the engine looks, it has no news. */
  constructor(editor, isLost) {
    this.#editor = editor;
    this.#isLost = isLost;
    editor.cm.on("changes", (_, changes) => this.#holds(changes));
  }

  /** Has what lost its text be where that was, until it is known what becomes of it. */
  #holds(changes) {
    const { cm } = this.#editor;
    for (const one of this.#shown.values()) {
      if (!placeOf(one.mark)) {
        Object.assign(one, { look: "", mark: cm.setBookmark(cm.clipPos(changes.at(-1).from)) });
        this.#isLost();
      }
    }
  }

  /** Marks these stretches, and no others. */
  show(list) {
    const before = this.#shown;
    this.#shown = new Map();
    this.#editor.cm.operation(() => {
      for (const one of list) {
        const [old, look] = [before.get(one.id), JSON.stringify([one.className, one.put, one.begin === one.end])];
        const isSame = old?.look === look && this.#isAt(old.mark, one);
        if (isSame) before.delete(one.id);
        this.#shown.set(one.id, isSame ? old : { look, mark: this.#marked(one) });
      }
      for (const old of before.values()) old.mark.clear();
    });
    this.lookAt(this.#looked);
  }

  /** Shows one stretch, of a thread that is looked at, in another way than the others. */
  lookAt(id) {
    this.#looked = id;
    const [place, before] = [this.placeOf(id), this.#over?.find()];
    if (place && before && [["from", place.from], ["to", place.to]].every(([end, at]) => CodeMirror.cmpPos(before[end], at) === 0)) return;
    this.#editor.cm.operation(() => {
      this.#over?.clear();
      this.#over = place && this.#editor.cm.markText(place.from, place.to, { className: "looked-at" });
    });
  }

  #isAt(marked, { begin, end }) {
    const [from, to] = [this.#editor.places.at(begin), this.#editor.places.at(end)];
    const now = placeOf(marked);
    return now && CodeMirror.cmpPos(now.from, from) === 0 && CodeMirror.cmpPos(now.to, to) === 0;
  }

  #marked(one) {
    const [from, to] = [one.begin, one.end].map((place) => this.#editor.places.at(place));
    return mark(this.#editor.cm, from, to, one);
  }

  /** Where a thread's stretch is now, as far as it is marked. */
  placeOf(id) {
    const shown = this.#shown.get(id);
    return shown && placeOf(shown.mark);
  }

  /** The threads whose stretches a place is in, the one that begins last first. */
  at(place) {
    const found = this.#editor.cm.findMarksAt(place).filter((one) => one.thread !== undefined).map((one) => [one.thread, placeOf(one)]);
    return found.filter(([, at]) => at).sort(([, one], [, other]) => CodeMirror.cmpPos(other.from, one.from)).map(([id]) => id);
  }
}
