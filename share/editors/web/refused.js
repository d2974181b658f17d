// Words that the user typed and the note refused. They stay below the text until the user puts them back, or away.
import { say } from "./said.js";

/* global CodeMirror */

// The most characters that are shown of it.
const MOST_SHOWN = 200;

/** Return the words that changes inserted and that later ones left, in the order of their places. Each place has a line. */
export function putBy(changes) {
  let parts = [];
  for (const [begin, end, put] of changes) {
    const [before, after] = [parts.filter(({ at, text }) => at + text.length < begin), parts.filter(({ at }) => at > end)];
    const met = parts.slice(before.length, parts.length - after.length);
    const [first, last] = [met[0], met.at(-1)];
    const head = first?.text.slice(0, Math.max(0, begin - first.at)) ?? "";
    const tail = last?.text.slice(Math.max(0, end - last.at)) ?? "";
    const [at, text] = [Math.min(begin, first?.at ?? begin), head + put + tail];
    const grows = put.length - (end - begin);
    parts = [...before, ...(text ? [{ at, text }] : []), ...after.map((one) => ({ ...one, at: one.at + grows }))];
  }
  return parts.map(({ text }) => text).join("\n");
}

export class Refused {
  #editor;
  // The words that are kept, the bookmark of their place, and the line that shows them. The line isn't in the page once it is put away.
  #words = "";
  #place;
  #line;

  constructor(editor) {
    this.#editor = editor;
  }

  /** Whether something is kept. */
  get hasWords() {
    return Boolean(this.#line?.isConnected);
  }

  /** Keep the words of refused changes, which were made at a place. Words that are refused later follow them: in a line of their own if they
   * were typed elsewhere. The text may have been put back in between, or it still has the earlier words. */
  take(why, changes, place) {
    const put = putBy(changes);
    if (!this.hasWords) this.#begins(place);
    const at = this.#editor.places.of(this.#place.find() ?? { line: 0, ch: 0 });
    const isElsewhere = this.#words && put && place !== at && place !== at + this.#words.length;
    this.#words += isElsewhere ? `\n${put}` : put;
    this.#line?.remove();
    const words = this.#words;
    if (!words) {
      say(why);
      return;
    }
    const button = Object.assign(document.createElement("button"), { textContent: "Put it back" });
    button.addEventListener("click", () => this.#puts(words));
    const shown = words.length > MOST_SHOWN ? `${words.slice(0, MOST_SHOWN)}..` : words;
    this.#line = say(`${why} What you typed is kept here, and isn't in the note: \u201c${shown}\u201d. `, button);
    this.#line.classList.add("typed");
  }

  #begins(place) {
    const { cm, places } = this.#editor;
    this.#words = "";
    this.#place?.clear();
    this.#place = cm.setBookmark(places.at(Math.min(place, this.#editor.text.length)));
  }

  /** Type the words again at their place, if the note takes edits. If they are refused again, they are kept again. */
  #puts(words) {
    const { cm, places } = this.#editor;
    if (cm.isReadOnly()) return;
    const at = this.#place.find() ?? cm.getCursor();
    const end = places.of(at) + words.length;
    this.#line.remove();
    this.#place.clear();
    cm.replaceRange(words, at, at, "paste");
    cm.setCursor(places.at(end));
    cm.focus();
  }
}
