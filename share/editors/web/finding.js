// Find and replace: a form that stays open while its user goes from match to match.

/* global CodeMirror */

/** @type {(id: string) => any} */
const element = (id) => document.getElementById(id);
// More matches aren't counted.
const MOST = 10_000;
// How long nothing is typed before a text that has changed is searched anew.
const CHANGED_MS = 200;

export class Finding {
  #cm;
  #release;
  #overlay = { token: (stream) => this.#token(stream) };
  // What is sought, as a pattern.
  #pattern;
  #now;
  // What was done.
  #said = "";
  #timer;

  /** `release` has keys done that are kept. */
  constructor(cm, release) {
    this.#cm = cm;
    this.#release = release;
    element("finding").addEventListener("submit", (event) => {
      event.preventDefault();
      this.#go(true);
    });
    element("finding").addEventListener("keydown", (event) => this.#pressed(event));
    element("sought").addEventListener("input", () => this.#seek());
    element("exact").addEventListener("change", () => this.#seek());
    element("previous").addEventListener("click", () => this.#go(false));
    element("one").addEventListener("click", () => this.#replaceOne());
    element("all").addEventListener("click", () => this.#replaceAll());
    element("found").addEventListener("click", () => this.close());
    cm.on("changes", () => {
      if (element("finding").hidden) return;
      clearTimeout(this.#timer);
      this.#timer = setTimeout(() => this.#count(), CHANGED_MS);
    });
  }

  /** Opens the form, with what is selected as what is sought. */
  open(replaces) {
    const selected = this.#cm.getSelection();
    if (selected && !selected.includes("\n")) element("sought").value = selected;
    const wasOpen = !element("finding").hidden;
    element("finding").hidden = false;
    element("replacing").hidden = !replaces && (!wasOpen || element("replacing").hidden);
    element("sought").focus();
    element("sought").select();
    this.#seek();
  }

  /** Closes it; the match that was found last is selected then. */
  close() {
    element("finding").hidden = true;
    this.#mark(undefined);
    this.#now?.clear();
    this.#now = undefined;
    this.#cm.focus();
  }

  /** Goes to the next match, or the one before, where the form was used already. */
  again(forward) {
    if (element("finding").hidden) this.open(false);
    else this.#go(forward);
  }

  #pressed(event) {
    const isEnter = event.key === "Enter" && !event.isComposing;
    if (event.key === "Escape") this.close();
    else if (isEnter && event.target.id === "other") this.#replaceOne();
    else if (isEnter && event.shiftKey && event.target.id === "sought") this.#go(false);
    else return;
    event.preventDefault();
  }

  /** Seeks what stands in the form, from the cursor on. */
  #seek() {
    const words = element("sought").value;
    this.#mark(words ? new RegExp(words.replace(/[\\^$.*+?()[\]{}|/]/g, "\\$&"), element("exact").checked ? "gu" : "giu") : undefined);
    this.#go(true, "from");
  }

  #cursor(from) {
    return this.#pattern && this.#cm.getSearchCursor(this.#pattern, from, { multiline: false });
  }

  /** Goes to the next match, or the one before; from an end of the text to the other one. */
  #go(forward, from = forward ? "to" : "from") {
    const ends = [this.#cm.getCursor(from), forward ? { line: 0, ch: 0 } : { line: this.#cm.lastLine() }];
    const found = ends.map((end) => this.#cursor(end)).find((cursor) => cursor?.find(!forward));
    this.#now?.clear();
    this.#now = undefined;
    if (found) this.#at(found);
    this.#said = "";
    this.#count();
  }

  /** Selects a match, and shows it as the one that was found. */
  #at(cursor) {
    this.#cm.operation(() => {
      this.#cm.setSelection(cursor.from(), cursor.to());
      this.#now = this.#cm.markText(cursor.from(), cursor.to(), { className: "found" });
      this.#cm.scrollIntoView({ from: cursor.from(), to: cursor.to() }, 60);
    });
  }

  /** Says how many matches there are, and which one is selected. */
  #count() {
    const [from, to] = ["from", "to"].map((end) => this.#cm.getCursor(end));
    let [many, at] = [0, 0];
    for (const cursor = this.#cursor({ line: 0, ch: 0 }); many < MOST && cursor?.findNext();) {
      many += 1;
      if (CodeMirror.cmpPos(cursor.from(), from) === 0 && CodeMirror.cmpPos(cursor.to(), to) === 0) at = many;
    }
    const words = many === MOST ? `over ${MOST}` : String(many);
    const found = many ? `${at || "-"} of ${words}` : "no match";
    element("count").textContent = this.#said || (this.#pattern ? found : "");
    const buttons = ["previous", "next", "one", "all"].map(element);
    // Keys go nowhere from a button that is disabled.
    if (!many && buttons.includes(document.activeElement)) element("found").focus();
    for (const button of buttons) button.disabled = !many;
  }

  #isOnMatch() {
    const cursor = this.#cursor(this.#cm.getCursor("from"));
    return Boolean(cursor?.findNext()) && ["from", "to"].every((end) => CodeMirror.cmpPos(cursor[end](), this.#cm.getCursor(end)) === 0);
  }

  async #replaceOne() {
    this.#release();
    if (this.#cm.isReadOnly()) return;
    if (this.#isOnMatch()) this.#cm.replaceSelection(element("other").value, "end");
    // Where it is suggested instead, the cursor goes on only then.
    await undefined;
    this.#go(true);
  }

  /** Replaces all matches as one edit, which one undo takes back; or suggests that, which leaves all of them in the text. */
  #replaceAll() {
    this.#release();
    if (this.#cm.isReadOnly()) return;
    const found = [];
    for (const cursor = this.#cursor({ line: 0, ch: 0 }); cursor?.findNext();) found.push([cursor.from(), cursor.to()]);
    this.#cm.operation(() => {
      for (const [from, to] of found.reverse()) this.#cm.replaceRange(element("other").value, from, to);
    });
    this.#said = `${found.length} ${element("suggesting").ariaPressed === "true" ? "suggested" : "replaced"}`;
    this.#count();
  }

  /** Has all matches of a pattern be marked. */
  #mark(pattern) {
    this.#cm.removeOverlay(this.#overlay);
    this.#pattern = pattern;
    if (pattern) this.#cm.addOverlay(this.#overlay);
  }

  #token(stream) {
    this.#pattern.lastIndex = stream.pos;
    const found = this.#pattern.exec(stream.string);
    if (!found) {
      stream.skipToEnd();
    } else if (found.index === stream.pos) {
      stream.pos += found[0].length || 1;
      return "match";
    } else {
      stream.pos = found.index;
    }
    return null;
  }
}
