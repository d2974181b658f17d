// What a screen reader is told, and how the keyboard leaves the text.

/** @type {(id: string) => any} */
const element = (id) => document.getElementById(id);
// How long others type nothing before what they typed is told, and the most that is read out of it.
const REST_MS = 1500;
const MOST_READ = 200;

/** Says something after all else that is being read. */
export function tell(words) {
  element("told").textContent = "";
  element("told").textContent = words;
}

/** Makes a text one that is edited for whoever reads the page by ear or goes by keys: Tab leaves it after Esc. */
export function isHeard(cm, label) {
  const field = cm.getInputField();
  Object.assign(field, { role: "textbox", ariaMultiLine: "true", ariaLabel: label, ariaDescription: element("leaving").textContent });
  const leaving = { Tab: false, "Shift-Tab": false };
  cm.on("keydown", (_, event) => {
    if (!["Tab", "Shift"].includes(event.key)) cm.removeKeyMap(leaving);
    if (event.key !== "Escape") return;
    cm.addKeyMap(leaving);
    tell("Tab leaves the text.");
  });
  cm.on("blur", () => cm.removeKeyMap(leaving));
  keepsPlace(cm, field);
}

/**
 * Who comes back to a text by keys finds the cursor where it was. The browser has it at the front, or at the begin of a line that was drawn
 * anew meanwhile, and CodeMirror would take it over from there.
 */
function keepsPlace(cm, field) {
  const { input } = cm.display;
  let isPointed = false;
  for (const kind of ["pointerdown", "pointerup", "pointercancel"]) {
    addEventListener(kind, () => { isPointed = kind === "pointerdown"; }, true);
  }
  field.addEventListener("focus", () => {
    if (isPointed) return;
    // What looks for the browser's cursor may be due before the browser has put it somewhere.
    input.gracePeriod ||= true;
    setTimeout(() => {
      if (input.gracePeriod === true) input.gracePeriod = false;
      if (!isPointed && document.activeElement === field) input.showSelection(input.prepareSelection(), true);
    });
  });
}

/** Tells, when others have stopped typing, which lines they changed. */
export class Changes {
  #cm;
  // The changed lines themselves: a mark in the text would have its line drawn anew as it goes, and what is composed there be lost.
  #lines = [];
  #timer;

  constructor(cm) {
    this.#cm = cm;
  }

  /** Others changed a place. */
  at(place) {
    if (this.#lines.length < MOST_READ) this.#lines.push(this.#cm.getLineHandle(place.line));
    clearTimeout(this.#timer);
    this.#timer = setTimeout(() => this.#tell(), REST_MS);
  }

  #tell() {
    const lines = this.#lines.map((line) => this.#cm.getLineNumber(line)).filter((line) => line !== null);
    this.#lines = [];
    const [first, last] = [Math.min(...lines), Math.max(...lines)];
    if (!lines.length) return;
    if (first === last) tell(`Others changed line ${first + 1}: ${this.#cm.getLine(first).slice(0, MOST_READ)}`);
    else tell(`Others changed lines ${first + 1} to ${last + 1}.`);
  }
}
