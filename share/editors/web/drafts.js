// A remark or a suggestion that is being written: its card, and the stretch that it is about, which stays with its characters.
import { Form } from "./forms.js";
import { made } from "./shown.js";

const asField = (text) => text.replace(/\r\n?/g, "\n");

/** What stands in a field, with the line ends of the text that it began with: a field knows one kind of them. */
function withLineEnds(value, text) {
  if (value === asField(text)) return text;
  return /\r\n/.test(text) && !/(?<!\r)\n/.test(text) ? value.replace(/\n/g, "\r\n") : value;
}

export class Draft {
  #editor;
  #mark;
  #form;

  /**
   * About what is marked, or its place; `put`, if it is given, is what is suggested at first. `sends(request, isOther)` sends it, unless
   * what is suggested is no other text, and gives whether that was done; `looked(draft)` and `left(draft, isDone)` are told so.
   */
  constructor(editor, mark, isSuggestion, put, { sends, looked, left }) {
    [this.#editor, this.#mark] = [editor, mark];
    const { from, to } = this.place();
    const [name, text] = isSuggestion ? ["Suggest", put ?? editor.cm.getRange(from, to)] : ["Remark"];
    this.#form = new Form({ words: name, text: "", isNeeded: !isSuggestion, put: text, isSelected: put === undefined, left: () => left(this, true),
      done: (body, typed) => this.#sends(sends, body, text === undefined ? undefined : withLineEnds(typed, text)) });
    this.element = Object.assign(made("article", "", "card draft active"), { ariaLabel: `${name}: a new one` });
    this.element.append(this.#form.element);
    this.element.addEventListener("focusin", () => looked(this));
    this.element.addEventListener("keydown", (event) => {
      if (event.key !== "Escape" || event.isComposing) return;
      event.preventDefault();
      left(this, !this.#form.hasWords);
    });
  }

  /** Sends it; where something is put, as a suggestion. */
  #sends(sends, body, put) {
    const { cm, places } = this.#editor;
    const { from, to } = this.place();
    const where = { begin: places.of(from), end: places.of(to) };
    if (put === undefined) return sends({ do: "remark", ...where, body }, true);
    return sends({ do: "suggest", ...where, new: put, ...(body ? { body } : {}) }, put !== cm.getRange(from, to));
  }

  /** Whether something is written in it. */
  get hasWords() {
    return this.#form.hasWords;
  }

  /** Where it belongs. */
  place() {
    return this.#mark.find() ?? { from: { line: 0, ch: 0 }, to: { line: 0, ch: 0 } };
  }

  focus() {
    this.#form.focus();
  }

  /** Puts it away. */
  clear() {
    this.#mark.clear();
    this.element.remove();
  }
}
