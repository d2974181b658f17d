// What is written in the margin: a body, and of a suggestion what is to stand in the text.
import { button, made } from "./shown.js";

// As many characters as a body may have.
const MOST_BODY = 100_000;

/** A field for words. */
function field(label, value, rows) {
  const it = /** @type {HTMLTextAreaElement} */ (made("textarea"));
  Object.assign(it, { value, rows, maxLength: MOST_BODY, ariaLabel: label, placeholder: label, dir: "auto" });
  it.addEventListener("input", () => grow(it));
  return it;
}

/** Has a field be as high as what is in it, within reason: the stylesheet has its most. */
function grow(it) {
  it.style.height = "auto";
  it.style.height = `${it.scrollHeight + 2}px`;
}

export class Form {
  #fields = [];
  #first;
  #begun;
  // Whether typing replaces what the first field begins with.
  #selects;
  #isSent = false;

  /**
   * `words` are those of the button that sends it. Without `text` it is a question, else that is what stands in its field at first, in
   * which something `isNeeded`; `put` is, where it is given, what stands at first in a field of its own, which `isSelected` for what is typed
   * there to replace it. `done(body, put)` gives whether that was done.
   * @param {{words: string, text?: string, put?: string, isSelected?: boolean, isNeeded?: boolean, told?: Node[],
   *   done: (...words: string[]) => any, left: () => void}} how
   */
  constructor({ words, text, put, isSelected = false, isNeeded = false, told = [], done, left }) {
    this.#selects = isSelected;
    this.element = Object.assign(made("form"), { ariaLabel: words });
    if (put !== undefined) this.#fields.push(field("What is to stand there instead", put, 2));
    if (text !== undefined) {
      const label = put === undefined ? words : "Why (may be left empty)";
      this.#fields.push(Object.assign(field(label, text, put === undefined ? 3 : 1), { required: isNeeded }));
    }
    this.#begun = this.#values.join("\0");
    const send = Object.assign(made("button", words), { type: "submit", title: "Ctrl-Enter" });
    const [cancel, line] = [button("Cancel", left), made("p", "", "buttons")];
    line.append(send, cancel);
    this.element.append(...told, ...this.#fields, line);
    this.#first = this.#fields[0] ?? cancel;
    this.element.addEventListener("submit", (event) => {
      event.preventDefault();
      this.#send(put === undefined ? [...this.#values] : [this.#values[1], this.#values[0]], done, left);
    });
    this.element.addEventListener("keydown", (event) => {
      if (event.key !== "Enter" || !(event.ctrlKey || event.metaKey) || event.isComposing) return;
      event.preventDefault();
      /** @type {HTMLFormElement} */ (this.element).requestSubmit();
    });
  }

  get #values() {
    return this.#fields.map((one) => one.value);
  }

  /** Whether there are words in it that would be lost. */
  get hasWords() {
    return this.#values.join("\0") !== this.#begun;
  }

  focus() {
    this.#first.focus();
    for (const one of this.#fields) grow(one);
    const end = this.#fields[0]?.value.length;
    this.#fields[0]?.setSelectionRange(this.#selects && !this.hasWords ? 0 : end, end);
  }

  /** Sends it once; it stays, with its words, where that failed. What would be typed meanwhile wouldn't be sent. */
  async #send(values, done, left) {
    if (this.#isSent) return;
    this.#waits(true);
    try {
      if (await done(...values)) left();
    } finally {
      this.#waits(false);
    }
  }

  #waits(isSent) {
    this.#isSent = isSent;
    for (const one of this.#fields) one.readOnly = isSent;
  }
}
