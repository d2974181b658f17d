// The note's text in the page: how it looks, and who is where in it.
import { Composing } from "./composing.js";
import { Edited } from "./edited.js";
import { SIGN_KEYS } from "./graphemes.js";
import { Others } from "./others.js";
import { colourOf } from "./people.js";

/* global CodeMirror */

// What stands as an element of its own, from which CodeMirror reads it back as it was: also the space that isn't broken.
const SPECIAL = /[\0-\x1f\x7f-\xa0\xad\u061c\u200b\u200e\u200f\u2028\u2029\ufeff\ufff9-\ufffc]/;
const AGAIN_MS = 50;
// A text that has more lines isn't in the page as a whole.
const MOST_LINES = 1000;
const NO_BREAK = "\u00a0";
const dot = CodeMirror.defaults.specialCharPlaceholder;
/**
 * The options of all texts: "\r" is a character as any other, and the browser knows the text as one that is edited.
 * @type {CodeMirror.EditorConfiguration}
 */
export const OPTIONS = {
  lineSeparator: "\n", lineWrapping: true, undoDepth: 0, screenReaderLabel: "Text", inputStyle: "contenteditable",
  spellcheck: true, autocorrect: true, autocapitalize: true, specialChars: SPECIAL,
  specialCharPlaceholder: (sign) => (sign === NO_BREAK ? Object.assign(document.createElement("span"), { textContent: sign }) : dot(sign)),
};

/** Pastes what has "\r", which CodeMirror's own pasting would turn into line ends. */
export function paste(cm, event) {
  const text = event.clipboardData?.getData("text/plain");
  if (!text?.includes("\r") || cm.isReadOnly()) return;
  event.preventDefault();
  cm.replaceSelection(text, "end", "paste");
}

export class Editor extends Edited {
  #others;
  // The marks of what has looks, and those of them that are bold.
  #dressed = [];
  #bold = new Set();

  /** `told` is told what `Edited` tells. */
  constructor(place, told) {
    super(CodeMirror(place, { ...OPTIONS, autofocus: true, readOnly: true, extraKeys: { ...SIGN_KEYS } }), told);
    this.#others = new Others(this.cm, this.places);
    this.composing = new Composing(this.cm);
    this.cm.on("changes", () => this.#fit());
    // CodeMirror would type one half of a character that has two, where a key types it; the browser types all of it.
    this.cm.on("keypress", (_, event) => {
      if (event.charCode >= 0xd800 && (event.charCode < 0xe000 || event.charCode > 0xffff)) event.codemirrorIgnore = true;
    });
    // CodeMirror sees no change of its size but by the window's.
    new ResizeObserver(() => this.#refresh()).observe(place);
  }

  /** Draws the text anew, when nothing is composed in it. */
  #refresh() {
    if (this.composing.isOn) setTimeout(() => this.#refresh(), AGAIN_MS);
    else this.cm.refresh();
  }

  /** Has all lines in the page, where they aren't too many, so that all can be read aloud. */
  #fit() {
    const margin = this.cm.lineCount() > MOST_LINES ? CodeMirror.defaults.viewportMargin : Infinity;
    if (this.cm.getOption("viewportMargin") !== margin) this.cm.setOption("viewportMargin", margin);
  }

  /** Shows the text anew, after it was hidden. */
  show() {
    this.cm.refresh();
    this.cm.focus();
  }

  /** The stretches that are selected. */
  selected() {
    return this.cm.listSelections().filter((one) => !one.empty())
      .map((one) => [this.places.of(one.from()), this.places.of(one.to())]);
  }

  /** Whether all that is selected is bold. */
  isBold() {
    return this.cm.listSelections().filter((one) => !one.empty()).every((one) => {
      let left = one.from();
      for (const mark of this.cm.findMarks(one.from(), one.to()).filter((found) => this.#bold.has(found))) {
        const { from, to } = /** @type {CodeMirror.MarkerRange} */ (mark.find());
        if (CodeMirror.cmpPos(from, left) <= 0 && CodeMirror.cmpPos(to, left) > 0) left = to;
      }
      return CodeMirror.cmpPos(left, one.to()) >= 0;
    });
  }

  /** Says whether the user may type. */
  set types(may) {
    if (this.cm.getOption("readOnly") === may) this.cm.setOption("readOnly", !may);
  }

  /** Shows these looks, and no others. */
  looks(list, colours) {
    this.cm.operation(() => {
      for (const mark of this.#dressed) mark.clear();
      this.#bold.clear();
      this.#dressed = list.map((one) => {
        const options = { css: styleOf(one, colours), className: one.colour ? "looked" : "", looks: true };
        const mark = this.cm.markText(this.places.at(one.begin), this.places.at(one.end), options);
        if (one.bold) this.#bold.add(mark);
        return mark;
      });
    });
  }

  /** The positions of what is in the page. */
  seen() {
    const { from, to } = this.cm.getViewport();
    const end = to > this.cm.lastLine() ? { line: this.cm.lastLine(), ch: this.cm.getLine(this.cm.lastLine()).length } : { line: to, ch: 0 };
    return [{ line: from, ch: 0 }, end].map((place) => this.places.of(place));
  }

  /** The first and the last place of the lines that are in sight, and of some screens above and below. */
  inSight(screens) {
    const { top, clientHeight } = this.cm.getScrollInfo();
    const [from, to] = [top - screens * clientHeight, top + (1 + screens) * clientHeight]
      .map((height) => Math.min(this.cm.lineAtHeight(height, "local"), this.cm.lastLine()));
    return [{ line: from, ch: 0 }, { line: to, ch: this.cm.getLine(to).length }];
  }

  /** Marks stretches so, in the place of other marks. */
  marked(before, list) {
    return this.cm.operation(() => {
      for (const mark of before) mark.clear();
      return list.map(({ begin, end, ...how }) => this.cm.markText(this.places.at(begin), this.places.at(end), how));
    });
  }

  /** Shows these cursors of others, and no others. */
  cursors(list) {
    this.#others.show(list);
  }
}

/** Looks as a style. */
function styleOf({ bold, italic, colour, offset }, colours) {
  const found = [bold && "font-weight: bold", italic && "font-style: italic"];
  if (colour) found.push(`color: ${colourOf(colours[colour])}`, `--colour: ${colourOf(colours[colour])}`);
  if (Number.isInteger(offset)) found.push(`vertical-align: ${offset}px`);
  return found.filter(Boolean).join("; ");
}
