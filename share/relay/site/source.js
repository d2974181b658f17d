// In place of a local engine: answers a note's page line by line as docs/ENGINE.md has it. Nothing is carried over here as an engine does,
// since the note's value and the editor are in one thread: each edit counts in the text that the editor shows, and is handed on as it is made
// (`here`).
import { Asking } from "./asking.js";
import { Looked } from "./looked.js";
import { People } from "./peopled.js";
import { ABOUT_MARGIN, Reviewing } from "./reviewing.js";
import { OTHER_TEXT, Wrong, errorOf } from "./shared.js";
import { Telling } from "./telling.js";
import { Typing } from "./typing.js";
import { Whole } from "./whole.js";

// The most bytes of a line.
const MOST = 33_554_432;
const [NOT_HERE, NOT_OPEN] = ["This page can't do that.", "The note isn't open."];
// The colours of looks, by their numbers.
const COLOURS = ["#000000", "#000000", "#cc2222", "#228822", "#2222cc", "#aa22aa", "#aa7700", "#227777", "#555555", "#888888", "#dd6666",
  "#66aa66", "#6666dd", "#cc66cc", "#ccaa44", "#66aaaa"];

/** @typedef {import("./telling.js").Told} Told */
/** @typedef {import("./shared.js").Change} Change */
/** @typedef {import("./shared.js").SharedText} SharedText */

export class Source {
  #told;
  #store;
  #note;
  #whole;
  #people;
  #telling;
  #typing;
  #asking;
  #reviewing;
  #looked;
  // The request that opens the note, until it is answered; and whether the relay's log is read for the first time.
  /** @type {any} */
  #asks = null;
  #isFirst;
  // How often it was opened.
  #opened = 0;

  /** @param {Told} told @param {import("./core.js").Core} core @param {import("./store.js").Store} store
   * @param {import("./keys.js").NoteKeys} keys @param {import("./store.js").Note} note */
  constructor(told, core, store, keys, note) {
    [this.#told, this.#store, this.#note] = [told, store, note];
    this.#isFirst = !note.size && !note.author;
    this.#whole = new Whole(core, store, keys, note, {
      isBusy: () => this.#telling.isBusy(), changed: (changes) => this.#changed(changes),
      unkept: (words) => this.#telling.unkept(words), kept: (edits) => this.#telling.answer(edits),
      reads: (done, of) => this.#reads(done, of), stands: () => this.#stands(), says: (words) => this.#says(words),
    });
    this.#people = new People(this.#whole.followed.presence, store, note);
    this.#telling = new Telling(told, this.#whole, this.#people);
    this.#typing = new Typing(this.#whole, this.#telling);
    this.#looked = new Looked(store, note, () => this.#whole.text?.fronts());
    this.#reviewing = new Reviewing(this.#whole, this.#telling, this.#typing, this.#people);
    this.#asking = new Asking(this.#whole, this.#people, this.#telling, this.#looked, () => this.#reviewing.suggested());
  }

  /** Greets the page. */
  async open() {
    this.#people.you = await this.#store.you();
    this.#told.came({ notice: "welcome", name: this.#people.you.name, missing: "" });
  }

  close() {
    this.#telling.close();
    this.#reviewing.close();
    this.#looked.close();
    this.#whole.close();
  }

  /** Does what a line of the page's asks.
   * @param {any} line */
  send(line) {
    if (line.do === "open") {
      this.#asks = line;
      this.#opens();
    } else if (line.do === "edit") {
      this.#typing.edit(line);
    } else {
      void this.#answers(line);
    }
  }

  // Opening.

  #opens() {
    const [{ text, followed: { standing } }, asks] = [this.#whole, this.#asks];
    if (!asks) return;
    if (!text || (this.#isFirst && standing.isUp && standing.read < standing.of)) {
      this.#reads(standing.read, standing.of);
      return;
    }
    [this.#asks, this.#isFirst, this.#opened] = [null, false, this.#opened + 1];
    this.#telling.begin();
    this.#typing.begin();
    this.#reviewing.begin();
    this.#isCalled(asks.name);
    this.#told.came({ answer: "open", id: asks.id, note: this.#note.name, units: "utf-16", text: text.slice(), version: 0, edits: 0, you: 1,
      site: this.#whole.own.number?.site ?? 0, most: MOST, colours: COLOURS, here: true });
    this.#stands();
  }

  /** @param {unknown} given what the page's user is called */
  #isCalled(given) {
    const name = typeof given === "string" ? given.trim() : this.#people.you.name;
    if (name === this.#people.you.name) return;
    this.#people.you = { ...this.#people.you, name };
    this.#store.setYou(this.#people.you).then(() => this.#whole.followed.isCalled()).catch((why) => this.#says(why.message));
  }

  /** @param {number} done @param {number} of */
  #reads(done, of) {
    if (!this.#telling.isOpen) this.#told.came({ notice: "opening", done, of });
  }

  /** @param {string} words */
  #says(words) {
    this.#told.came({ notice: "says", words });
  }

  // What has changed.

  /** @param {Change[] | null} changes nothing where the text was begun anew */
  #changed(changes) {
    if (!this.#telling.isOpen || changes?.length === 0) return;
    if (changes) {
      this.#typing.moved(changes);
      this.#telling.changes(changes);
    } else {
      this.#typing.begin();
      this.#telling.text();
    }
  }

  #stands() {
    this.#opens();
    this.#telling.stands();
    if (!this.#telling.isOpen) return;
    this.#looked.shows();
    this.#reviewing.follows();
  }

  // Requests.

  /** Answers a request; who asks waits for it from now on.
   * @param {any} line */
  async #answers(line) {
    const more = line.id === undefined ? {} : { id: line.id };
    const opened = this.#opened;
    const found = await Promise.resolve(this.#asked(line)).catch(errorOf);
    // Whoever asked is gone.
    if (opened !== this.#opened) return;
    // What is about places is found as it is told.
    const answer = { answer: line.do, ...more, ...(typeof found === "function" ? orError(found) : found) };
    if (line.do === "close") await this.#ends(answer);
    else this.#told.came(answer);
  }

  /** @param {object} answer */
  async #ends(answer) {
    await this.#whole.settled();
    this.#told.came(answer);
    this.#telling.close();
    if (this.#told.ended("")) await this.open();
  }

  /** Types again what is left out of what the page's user typed.
   * @param {SharedText} text */
  async #recovers(text) {
    const lost = await this.#whole.recover((passages) => {
      if (text !== this.#whole.text) throw new Wrong("order", OTHER_TEXT);
      this.#typing.puts(text, passages);
    });
    return { lost };
  }

  /** @param {any} line @returns {object | Promise<object | (() => object)>} */
  #asked(line) {
    const { text } = this.#whole;
    if (line.do === "text") {
      // An error isn't what this is answered: a page asks for the text where it is told one.
      this.#telling.edits = line.edits;
      this.#telling.text();
    }
    if (["close", "seen", "text"].includes(line.do)) return {};
    if (!text || !this.#telling.isOpen) return { error: "order", words: NOT_OPEN };
    try {
      switch (line.do) {
        case "undo": case "redo": return this.#typing.undo(text, line);
        case "looks": return this.#typing.look(text, line);
        case "recover": return this.#recovers(text);
        case "cursor": return this.#typing.cursor(text, line);
        case "on": return this.#asking.on();
        case "who": return this.#asking.who(text, line);
        case "history": return this.#asking.history(line);
        case "past": return this.#asking.past(text, line);
        case "changed": return this.#asking.changed(text, line);
        default: return ABOUT_MARGIN.has(line.do) ? this.#reviewing.does(text, line) : { error: "unknown", words: NOT_HERE };
      }
    } catch (why) {
      return errorOf(why);
    }
  }
}

/** What is found, or why it isn't.
 * @param {() => object} finds */
function orError(finds) {
  try {
    return finds();
  } catch (why) {
    return errorOf(why);
  }
}
