// An editor's side of the protocol of docs/ENGINE.md, without a page.

// After typing this long without all being answered, keys are kept until it is; and for how long at most.
const BUSY_MS = 500;
export const PATIENCE_MS = 200;
// From this number of unanswered edits on, further changes become one.
const UNANSWERED = 10;
// An edit that has more changes is sent as several, which are taken back as one.
const MOST_CHANGES = 10_000;
// The notices after which an editor that only reads says which version it has.
const NOTICES = 100;
const NOT_CARRIED = "The note's engine ended, and the next one can't tell where this belongs.";

/** A text after changes, each of which counts in the text that those before it leave. */
export function changed(text, changes) {
  for (const [begin, end, put] of changes) text = text.slice(0, begin) + put + text.slice(end);
  return text;
}

/** Divide changes into edits, so that no edit has too many. They are undone together. */
function inEdits(changes) {
  const edits = [];
  for (let at = 0; at < changes.length; at += MOST_CHANGES) {
    edits.push({ changes: changes.slice(at, at + MOST_CHANGES), ...(at ? { join: true } : {}) });
  }
  return edits;
}

/** Where a place is after changes: it stays before text that comes in at it. */
function moved(place, changes) {
  for (const [begin, end, put] of changes) {
    if (begin < place) place = Math.max(begin, place - (end - begin)) + (end <= place ? put.length : 0);
  }
  return place;
}

/** Return whether an insertion at a column is whole lines at the start of a line. A cursor there moves with its line. */
export function opensLine(column, text) {
  return column === 0 && text.endsWith("\n");
}

/** Bytes in hexadecimal digits. */
export const hex = (bytes) => [...new Uint8Array(bytes)].map((one) => one.toString(16).padStart(2, "0")).join("");

/** Spell a line as bytes, in pieces of at most this size. */
export function* pieces(line, size) {
  const bytes = new TextEncoder().encode(`${JSON.stringify(line)}\n`);
  for (let at = 0; at < bytes.length; at += size) yield bytes.subarray(at, at + size);
}

/** Makes lines of pieces of bytes, wherever those were cut. */
export class Lines {
  #decoder = new TextDecoder();
  #parts = [];

  /** The lines that end in a piece. */
  * of(bytes) {
    const [first, ...others] = this.#decoder.decode(bytes, { stream: true }).split("\n");
    this.#parts.push(first);
    for (const part of others) {
      yield JSON.parse(this.#parts.join(""));
      this.#parts = [part];
    }
  }
}

/**
 * An editor of a note. It calls these functions of its `view`:
 * - `change(changes, cursor)` shows changes of others, or of an undo.
 * - `replace(text)` shows another text, and returns the changes that this took.
 * - `looks(list)`, `cursors(list)`, `state(line)`, `remarks(line)`, `say(words)` show what the engine reports.
 * - `refused(words, changes, place)` keeps changes of the user that aren't in the text; `words` say why.
 * - `answered()` is called after each answer to an edit.
 */
export class Client {
  #send;
  #view;
  #clock;
  // Whether the note is in this page, without an engine. Then each edit is sent at once, and nobody's text is held back.
  #isHere;
  // From when on there has been an edit without an answer at every moment.
  #busyFrom = 0;
  #notices = 0;
  #gathered = [];
  // When this editor was last in step with the engine, and its edits since then, as they are sent. An editor of a note that answers here has
  // none.
  #inStep;
  #since = [];
  #isAway = false;
  // The edits that aren't answered: the number of each, its changes, and where the first one is now.
  #unanswered = [];
  #asked = new Map();
  #ids = 1;

  constructor(opened, send, view, clock = () => performance.now()) {
    this.version = opened.version;
    this.made = opened.edits;
    this.answered = opened.edits;
    this.#inStep = { version: opened.version, edits: opened.edits };
    this.#isHere = opened.here === true;
    this.#send = send;
    this.#view = view;
    this.#clock = clock;
  }

  /** Sends an edit that the user made, and that is shown already. */
  edit(changes) {
    this.#moves(changes);
    this.#gathered = this.#gathered.concat(changes);
    if (this.#isHere || this.made < this.answered + UNANSWERED) this.#flush();
  }

  #flush() {
    const edits = inEdits(this.#gathered);
    this.#gathered = [];
    edits.forEach((edit) => this.#make(edit));
  }

  #make(edit) {
    if (this.answered === this.made) this.#busyFrom = this.#clock();
    this.made += 1;
    this.#notices = 0;
    this.#unanswered.push({ edits: this.made, changes: edit.changes, place: edit.changes[0][0] });
    if (!this.#isHere) this.#since.push(edit);
    if (!this.#isAway) this.#send({ do: "edit", version: this.version, edits: this.made, ...edit });
  }

  /** The text was changed: places of what isn't answered go along. */
  #moves(changes) {
    for (const one of this.#unanswered) one.place = moved(one.place, changes);
  }

  /** The number of the user's edits that aren't known to be on the disk. */
  get unanswered() {
    return this.made - this.answered + (this.#gathered.length ? 1 : 0);
  }

  /** Return whether the next key must wait until the last edit is answered. */
  waits() {
    return !this.#isHere && this.answered < this.made && this.#clock() > this.#busyFrom + BUSY_MS;
  }

  /** Says that this took too long. */
  gaveUp() {
    this.#busyFrom = this.#clock();
  }

  /** Sends a request, for its answer. Of a quiet one the user isn't told that it failed: whoever asks does that. */
  ask(request, isQuiet = false) {
    if (this.#isAway) return Promise.resolve({ error: "away" });
    this.#flush();
    this.#ids += 1;
    const id = this.#ids;
    this.#send({ ...request, id });
    return new Promise((resolve) => { this.#asked.set(id, { resolve, isQuiet }); });
  }

  /** Asks about places of the text as it is; the answer's `isOld()` says whether its places aren't those of the text any more. */
  askOf(request, isQuiet = false) {
    return this.ask({ ...request, version: this.version }, isQuiet);
  }

  /** The engine has ended. Its requests get no answer. Edits wait for the next engine from now on. */
  away() {
    this.#isAway = true;
    for (const { resolve } of this.#asked.values()) resolve({ error: "away" });
    this.#asked.clear();
  }

  /** Return when the text that is shown was last in step with the engine's, and the edits since then, also those that aren't sent. */
  standing() {
    return { ...this.#inStep, made: [...this.#since, ...inEdits(this.#gathered)] };
  }

  /** Return the field `again` for the next engine, without the hash. Later changes belong to later edits. */
  again() {
    this.#flush();
    return this.standing();
  }

  /** Send the gathered changes. */
  hurry() {
    this.#flush();
  }

  /** The next engine has opened the note: it has all edits up to a number, and the later ones are sent; or it shows another text. */
  back(opened) {
    this.#isAway = false;
    if ("text" in opened) {
      this.#replaced(opened);
      return;
    }
    const { version, edits } = opened;
    this.#since = this.#since.slice(edits - this.#inStep.edits);
    [this.version, this.#inStep, this.#busyFrom] = [version, { version, edits }, this.#clock()];
    this.#since.forEach((edit, at) => this.#send({ do: "edit", version, edits: edits + 1 + at, ...edit }));
    this.#answered({ edits });
    this.#flush();
  }

  /** Shows the engine's text. The words of edits that it doesn't have are their user's. */
  #replaced({ text, version, edits, has = this.answered }) {
    this.#flush();
    this.#moves(this.#view.replace(text));
    const some = this.#unanswered.filter((one) => one.edits > has);
    [this.version, this.made, this.answered, this.#inStep] = [version, edits, edits, { version, edits }];
    [this.#since, this.#unanswered] = [[], []];
    if (some.length) this.#view.refused(NOT_CARRIED, some.flatMap((one) => one.changes), some[0].place);
    this.#view.answered();
  }

  /** Shows the engine's text of now, with all edits. */
  #steps() {
    [this.#inStep, this.#since] = [{ version: this.version, edits: this.made }, []];
  }

  /** Has stretches be bold, or of a colour. */
  look(ranges, looks) {
    return this.ask({ do: "looks", version: this.version, ranges, ...looks });
  }

  /** Says where the user's cursor is, and the other end of a selection. */
  cursor(at, anchor) {
    if (this.#isAway) return;
    this.#flush();
    this.#send({ do: "cursor", version: this.version, at, ...(anchor === undefined ? {} : { anchor }) });
  }

  /** Takes in a line. */
  take(line) {
    this.#flush();
    if ("notice" in line) this.#notice(line);
    else this.#answer(line);
  }

  #answer(line) {
    const asked = this.#asked.get(line.id);
    const isOfEdit = line.answer === "edit" && "edits" in line;
    if ("error" in line) {
      if (!asked?.isQuiet && !isOfEdit) this.#view.say(line.words);
      if (!("edits" in line) && !("id" in line)) this.#send({ do: "text", edits: this.made });
    }
    if (isOfEdit) this.#answered(line);
    // The caller goes on later. By then other notices may have been shown.
    const { version } = this;
    const isOld = () => version !== this.version || line.edits !== this.made || this.#gathered.length > 0;
    asked?.resolve({ ...line, isOld });
    this.#asked.delete(line.id);
  }

  /** All up to an edit is kept, or it is refused with those before it that weren't answered. */
  #answered({ edits, error = "", words = "", version = -1 }) {
    const isLater = (one) => one.edits > edits;
    const some = this.#unanswered.filter((one) => !isLater(one));
    this.#unanswered = this.#unanswered.filter(isLater);
    this.answered = edits;
    if (edits === this.made && version === this.version) this.#steps();
    if (error) this.#view.refused(words, some.flatMap((one) => one.changes), some[0]?.place ?? 0);
    this.#view.answered();
  }

  #notice(line) {
    if (line.notice === "state") this.#view.state(line);
    else if (line.notice === "says") this.#view.say(line.words);
    else if (line.notice === "remarks") this.#view.remarks(line);
    else if (line.edits === this.made) this.#agreed(line);
  }

  /** Takes over a notice that counts all edits. */
  #agreed(line) {
    if (line.notice === "cursors") {
      this.#view.cursors(line.cursors);
    } else if (line.notice === "changes") {
      this.version = line.version;
      this.#moves(line.changes);
      this.#view.change(line.changes, line.cursor);
      this.#seen();
    } else if (line.notice === "text") {
      this.version = line.version;
      this.#moves(this.#view.replace(line.text));
      this.#seen();
    } else if (line.notice === "looks") {
      this.version = line.version;
      this.#view.looks(line.looks);
      this.#seen();
    }
  }

  /** A notice that has a version was taken over. */
  #seen() {
    this.#steps();
    this.#notices += 1;
    if (this.#notices < NOTICES) return;
    this.#notices = 0;
    this.#send({ do: "seen", version: this.version });
  }
}
