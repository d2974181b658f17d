// Edits that the note's engine hasn't on its disk yet, written into the browser's storage before the page goes on. They are there after the
// tab was closed or killed, and the next tab that opens the note hands them on to the engine.
import { sha256 } from "./digest.js";

const BEGIN = "vialshoal unkept edits ";
const DAMAGED = "vialshoal damaged edits ";
const AGAIN_MS = 1_000;
// The hash of a longer text would take too long at each key.
const MOST_CHARACTERS = 1_000_000;
// Errors of an engine that may be over soon.
const PASSING = new Set(["number", "unkept", "failed"]);
const NOT_CARRIED = "A tab ended before the note had all that was typed there. It can't be told where this belongs.";
const UNREADABLE = "What a closed tab kept of its last keys can't be read. It is set aside in this browser's storage.";
const storage = storageHere();

/** Return the browser's storage, if it allows any. */
function storageHere() {
  try {
    return globalThis.localStorage;
  } catch {
    return undefined;
  }
}

/** Have a tab be the only one that writes, or hands on, the edits of an editor. Other tabs wait for their turn, until a tab ends. */
const inTurn = (name, signal, does) => navigator.locks.request(name, { signal }, does).catch((why) => {
  if (!signal.aborted) throw why;
});

/** Return the edits that are written under a name; undefined if there are none. Set damaged ones aside. */
function read(name, told) {
  const words = storage?.getItem(name);
  if (!words) return undefined;
  try {
    const again = JSON.parse(words);
    if (!Array.isArray(again?.made)) throw new TypeError("no edits");
    return again;
  } catch {
    storage?.setItem(DAMAGED + name, words);
    storage?.removeItem(name);
    told.say(UNREADABLE);
    return undefined;
  }
}

export class Unkept {
  #connects;
  #told;
  #begin;
  #name = "";
  // The written edits, without the hash.
  #written = "";
  #ends = new AbortController();
  // The editors whose edits this tab hands on, or waits to.
  #others = new Set();

  /** `connects` makes a connection to the engine. `told.refused(words, changes, place)` keeps edits that can't be handed on, and
   * `told.say(words)` shows words. */
  constructor(note, connects, told) {
    [this.#begin, this.#connects, this.#told] = [`${BEGIN}${encodeURIComponent(note)} `, connects, told];
  }

  /** Write the edits of an editor from now on, in place of those of the editor of before. Hand on those of tabs that have ended. */
  begin(editor) {
    if (!storage) return;
    this.#ends.abort();
    this.#ends = new AbortController();
    this.#others.clear();
    [this.#name, this.#written] = [this.#begin + editor, ""];
    const { signal } = this.#ends;
    void inTurn(this.#name, signal, () => new Promise((done) => signal.addEventListener("abort", done)));
    this.looks();
  }

  /** Hand on the edits of tabs that have ended, and of others as soon as they end. */
  looks() {
    const names = Object.keys(storage ?? {}).filter((name) => name.startsWith(this.#begin));
    for (const name of names.filter((one) => one !== this.#name && !this.#others.has(one))) {
      this.#others.add(name);
      void inTurn(name, this.#ends.signal, () => this.#handsOn(name)).finally(() => this.#others.delete(name));
    }
  }

  /** Write the edits that a client has made and that aren't answered, with the hash of the text that is shown. If they can't be written,
   * whoever closes the page is asked all the same. */
  keep(client, text) {
    if (!this.#name) return;
    const standing = client.unanswered && text.length <= MOST_CHARACTERS ? client.standing() : undefined;
    const words = standing ? JSON.stringify(standing) : "";
    if (words === this.#written) return;
    this.#written = words;
    try {
      if (standing) storage?.setItem(this.#name, JSON.stringify({ ...standing, hash: sha256(text) }));
      else storage?.removeItem(this.#name);
    } catch {
      // There is no room.
      storage?.removeItem(this.#name);
    }
  }

  /** Open the note again under the name of the editor that wrote these edits, so that the engine makes those that it lacks. */
  async #handsOn(name) {
    const again = read(name, this.#told);
    if (!again) return;
    const answer = await this.#answered(name.slice(name.lastIndexOf(" ") + 1), again, (line) => {
      if (!line.error) storage?.removeItem(name);
    });
    if (PASSING.has(answer.error)) {
      await new Promise((done) => setTimeout(done, AGAIN_MS));
      await this.#handsOn(name);
    } else if (answer.error) {
      this.#told.say(answer.words);
    } else if ("text" in answer) {
      const changes = again.made.slice(Math.max(0, (answer.has ?? again.edits) - again.edits)).flatMap((edit) => edit.changes);
      if (changes.length) this.#told.refused(NOT_CARRIED, changes, changes[0][0]);
    }
  }

  /** Return what an engine answers to an editor that opens again; `takes` is called before the engine forgets the editor. */
  #answered(editor, again, takes) {
    return new Promise((done) => {
      const way = this.#connects({
        came: (line) => {
          if (line.notice === "welcome") way.send({ do: "open", id: 0, protocol: 1, units: ["utf-16"], editor, again });
          if (line.answer !== "open") return;
          takes(line);
          way.send({ do: "close", id: 1 });
          way.close();
          done(line);
        },
        ended: () => false, isBusy: () => false, waits() {}, settles() {},
      });
      way.open();
    });
  }
}
