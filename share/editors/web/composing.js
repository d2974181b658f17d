// How what the browser puts into the text is read back, as what an input method composes: the browser shows it first, and what else came
// in meanwhile could take it away. CodeMirror waits for a last event of each composition that it makes use of, but not every end has one.

// What stands as an element of its own, which CodeMirror reads as one character.
const SIGN = "[cm-text]";
// How long an input method may show no sign of itself while others' text waits for it.
const QUIET_MS = 30_000;
const SIGNS_OF_LIFE = ["compositionstart", "compositionupdate", "beforeinput", "keydown"];
// The key code of a key that an input method takes.
const TAKEN = 229;
// What a text is scrolled by.
const SCROLLED = ".CodeMirror-scroll, .CodeMirror-vscrollbar";

export class Composing {
  #cm;
  #input;
  #field;
  // The elements that stand for one character each, by what they show.
  #signs = new WeakMap();
  // When there was a sign of an input method last.
  #seen = 0;

  constructor(cm) {
    this.#cm = cm;
    this.#input = cm.display.input;
    this.#field = cm.getInputField();
    cm.on("renderLine", (_, __, line) => line.querySelectorAll(SIGN).forEach((sign) => this.#signs.set(sign, sign.textContent)));
    for (const kind of SIGNS_OF_LIFE) this.#on(kind, () => { this.#seen = performance.now(); });
    this.#on("compositionupdate", () => { if (this.#input.composing) this.#input.composing.done = false; });
    this.#on("compositionend", () => this.#over());
    this.#on("input", (event) => { if (!event.isComposing) this.#over(); });
    this.#on("keydown", (event) => { if (!event.isComposing && event.keyCode !== TAKEN) this.#over(); });
    cm.on("blur", () => this.#over());
    // CodeMirror would draw what they change before it reads.
    for (const kind of ["paste", "cut", "drop"]) cm.on(kind, () => this.end());
    // Before CodeMirror hears of it, which takes lines that aren't seen out of the page.
    cm.getWrapperElement().addEventListener("scroll", (event) => this.#scrolled(event.target), true);
  }

  /** Reads back what the browser has on a line that isn't seen any more, in a text that isn't in the page as a whole. */
  #scrolled(by) {
    if (!this.isOn || !by.matches(SCROLLED) || this.#cm.getOption("viewportMargin") === Infinity) return;
    const [{ line }, top] = [this.#cm.getCursor(), by.scrollTop];
    const [first, last] = [top, top + by.clientHeight].map((height) => this.#cm.lineAtHeight(height, "local"));
    if (line >= first && line <= last) return;
    this.end();
    this.#cm.scrollTo(null, top);
  }

  /** @param {string} kind @param {(event: any) => void} does */
  #on(kind, does) {
    this.#field.addEventListener(kind, does);
  }

  /** Whether the browser has text that isn't read back yet. */
  get isOn() {
    return Boolean(this.#input.composing) || this.#input.readDOMTimeout !== null;
  }

  /** Nothing is composed any more: what the browser has is read back soon. */
  #over() {
    this.#freeText();
    if (!this.#input.composing) return;
    this.#input.composing.done = true;
    this.#input.readFromDOMSoon();
  }

  /** Puts what the browser has put into an element that stands for one character beside that, since CodeMirror reads there. */
  #freeText() {
    for (const sign of this.#field.querySelectorAll(SIGN)) {
      const [shown, now] = [this.#signs.get(sign), sign.textContent];
      if (shown === undefined || shown === now) continue;
      sign.textContent = shown;
      if (now.startsWith(shown)) sign.after(now.slice(shown.length));
      else sign.before(now.endsWith(shown) ? now.slice(0, now.length - shown.length) : now);
    }
  }

  /** Ends what has shown no sign of itself for long, since others' text waits for it. */
  hurry() {
    if (this.isOn && performance.now() > this.#seen + QUIET_MS) this.end();
  }

  /** Reads back now what the browser has; what is composed still is ended as it stands. */
  end() {
    if (!this.isOn) return;
    const isHere = Boolean(this.#input.composing) && document.activeElement === this.#field;
    // Without the focus the browser composes nothing more: what was read before that could come a second time.
    if (isHere) this.#field.blur();
    this.#freeText();
    clearTimeout(this.#input.readDOMTimeout);
    Object.assign(this.#input, { composing: null, readDOMTimeout: null });
    this.#input.updateFromDOM();
    if (!isHere) return;
    // What was drawn without the focus has left the browser's cursor at the line's begin, from where CodeMirror would take it over.
    this.#input.showSelection(this.#input.prepareSelection(), true);
    this.#field.focus({ preventScroll: true });
  }
}
