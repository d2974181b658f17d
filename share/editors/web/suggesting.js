// Typing that suggests: what is typed and deleted isn't done, but gathered, as long as it goes on at one place, into one suggestion.
import { gathered } from "./gathered.js";
import { withoutLast } from "./graphemes.js";
import { mark, placeOf } from "./stretches.js";

/* global CodeMirror */

/** @type {(id: string) => any} */
const element = (id) => document.getElementById(id);
// How long nothing is typed before it is sent.
const REST_MS = 4000;
// How long after the text is left it is looked whether what was composed there is read back.
const LEFT_MS = 50;
const isBefore = (one, other) => CodeMirror.cmpPos(one, other) < 0;
const isSame = (one, other) => CodeMirror.cmpPos(one, other) === 0;

export class Suggesting {
  #editor;
  #sends;
  #fails;
  // Changes that weren't made and are to be looked at.
  #taken = [];
  // What is gathered: its mark, and what is put there.
  #mark;
  #put = "";
  #timer;
  #isMoving = false;
  // A key that would also indent begins a line alone.
  #keys = { Enter: (cm) => cm.replaceSelection("\n"), "Shift-Tab": () => undefined };

  /** `sends(request)` sends a suggestion, and gives whether that was done; else `fails(from, to, put)` gets what was typed. */
  constructor(editor, sends, fails) {
    [this.#editor, this.#sends, this.#fails] = [editor, sends, fails];
    editor.cm.on("cursorActivity", () => this.#passes());
    editor.cm.on("blur", () => this.#leaves());
  }

  get #isOn() {
    return element("suggesting").ariaPressed === "true";
  }

  /** Whether something is gathered. */
  get hasWords() {
    return this.#mark !== undefined || this.#taken.length > 0;
  }

  /** Whether the user's typing suggests, or not any more; what is composed still belongs to what was before. */
  toggle() {
    this.#editor.composing.end();
    this.end();
    const isOn = !this.#isOn;
    element("suggesting").ariaPressed = String(isOn);
    if (isOn) this.#editor.cm.addKeyMap(this.#keys);
    else this.#editor.cm.removeKeyMap(this.#keys);
    this.#editor.cm.focus();
  }

  /** Takes a change that is about to be made. */
  takes({ from, to, text }) {
    if (!this.#isOn) return false;
    const { anchor } = this.#editor.cm.listSelections()[0];
    if (!this.#taken.length) queueMicrotask(() => this.#does());
    this.#taken.push({ from, to, put: text.join("\n"), isBack: isSame(anchor, to) && isBefore(from, to) });
    return true;
  }

  #does() {
    const taken = this.#taken;
    if (!taken.length) return;
    this.#taken = [];
    this.#isMoving = true;
    try {
      this.#editor.cm.operation(() => taken.forEach((one) => this.#gathers(one)));
    } finally {
      this.#isMoving = false;
    }
    this.#rests();
  }

  /** Sends what is gathered once nothing is typed for a while, nor composed. */
  #rests() {
    clearTimeout(this.#timer);
    this.#timer = setTimeout(() => (this.#editor.composing.isOn ? this.#rests() : this.end()), REST_MS);
  }

  #gathers({ from, to, put, isBack }) {
    const { cm } = this.#editor;
    const [at, isOneSign] = [this.#place(), isBack && withoutLast(cm.getRange(from, to)) === ""];
    const { now, cursor, isElsewhere } = gathered(at && { ...at, put: this.#put }, { from, to, put, back: isBack ? (isOneSign ? 1 : 2) : 0 });
    if (isElsewhere) this.end();
    this.#shows(now);
    cm.setCursor(cursor);
  }

  /** Shows what is gathered, if that is anything. */
  #shows(one) {
    this.#mark?.clear();
    this.#put = one?.put ?? "";
    this.#mark = one && mark(this.#editor.cm, one.from, one.to, { className: "suggestion open own", put: one.put });
    // The browser may show what it typed.
    if (!this.#mark) this.#editor.cm.refresh();
  }

  #place() {
    return this.#mark && placeOf(this.#mark);
  }

  /** The cursor is where it is: elsewhere, what was gathered is all. */
  #passes() {
    const at = this.#place();
    if (!at || this.#isMoving || this.#taken.length) return;
    const cursor = this.#editor.cm.getCursor();
    if (isBefore(cursor, at.from) || isBefore(at.to, cursor)) this.end();
  }

  /** The text is left: what is gathered is all, with what was composed there, as soon as that is read back. */
  #leaves() {
    const { cm, composing } = this.#editor;
    if (composing.isOn) setTimeout(() => { if (!cm.hasFocus()) this.#leaves(); }, LEFT_MS);
    else this.end();
  }

  /** Drops what is gathered; whether there was anything. */
  drops() {
    this.#does();
    const { hasWords } = this;
    this.#mark?.clear();
    [this.#mark, this.#put] = [undefined, ""];
    return hasWords;
  }

  /** Sends what is gathered. */
  async end() {
    this.#does();
    const [at, shown, put] = [this.#place(), this.#mark, this.#put];
    [this.#mark, this.#put] = [undefined, ""];
    if (!at) return;
    const { places } = this.#editor;
    const isDone = await this.#sends({ do: "suggest", begin: places.of(at.from), end: places.of(at.to), new: put });
    const { from, to } = placeOf(shown) ?? at;
    shown.clear();
    if (!isDone) this.#fails(from, to, put);
  }
}
