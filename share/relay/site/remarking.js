// What a page has written into a note's margin, as share/engine/reviewing.py has it: on the disk before it is answered.
import { MOST_ANCHORED, anchored } from "./anchor.js";
import { beginOf } from "./lines.js";
import { MOST_BY, MOST_OF_A_BODY, begins, lengthOf } from "./record.js";
import { OTHER_TEXT, Wrong, lengthInBytes } from "./shared.js";
import { lineOf, linesOf, ownFields } from "./written.js";

/** @typedef {import("./record.js").MarginRecord} MarginRecord */
/** @typedef {import("./value.js").Names} Names */
/** @typedef {import("./shared.js").SharedText} SharedText */
/** What a request is about, as it was when it came: characters, or the one before a place; and what is selected, readable.
 * @typedef {{ at: Names[], behind: [number, number] | null, text: string }} About */

// The most bytes of a replacement.
const MOST_REPLACED = 8_000;
/** @type {Record<string, string>} */
const STATES = { resolve: "resolved", reopen: "open", reject: "rejected" };

export class Remarking {
  #whole;
  #telling;
  #typing;
  #people;
  #margin;

  /** @param {import("./whole.js").Whole} whole @param {import("./telling.js").Telling} telling @param {import("./typing.js").Typing} typing
   * @param {import("./peopled.js").People} people @param {import("./notemargin.js").NoteMargin} margin */
  constructor(whole, telling, typing, people, margin) {
    [this.#whole, this.#telling, this.#typing, this.#people, this.#margin] = [whole, telling, typing, people, margin];
    typing.accepted = (id, isAccepted) => this.#accepted(id, isAccepted);
  }

  /** @param {SharedText} text @param {any} line */
  async remark(text, line) {
    const body = bodyOf(line, false);
    const { at, behind, text: selected } = this.#about(text, line);
    await this.#whole.kept();
    const anchor = await anchored(at, behind, [], selected, this.#knows());
    return { thread: await this.#write({ ...this.#record("remark"), body, anchor }) };
  }

  /** Types the replacement inside what it would replace, hides it, and writes of it.
   * @param {SharedText} text @param {any} line */
  async suggest(text, line) {
    const { begin, end, new: put } = line;
    const [body, size] = [line.body === undefined ? "" : bodyOf(line, true), lengthInBytes(whole(put, "new"))];
    if (size > MOST_REPLACED) throw new Wrong("long", `A suggestion has ${many(MOST_REPLACED)} bytes at most. Suggest it in parts.`);
    const { at, behind, text: selected } = this.#about(text, line);
    if (!size && !at.length) throw new Wrong("field", "A suggestion has to have something to replace, or new text.");
    const names = text.suggest([begin, end, put]);
    const { number } = this.#whole.own;
    this.#whole.made(this.#telling.edits);
    // What is typed is on the disk before it is spoken of.
    await this.#whole.kept();
    const anchor = await anchored(at, behind, names, selected, this.#knows());
    return { thread: await this.#write({ ...this.#record("suggestion"), body, anchor, new: names }, number?.site) };
  }

  /** @param {any} line */
  async reply(line) {
    const body = bodyOf(line, false);
    return { record: await this.#write({ ...this.#record("reply"), body, of: this.#margin.said.ref(await this.thread(line)) }) };
  }

  /** @param {any} line */
  async state(line) {
    await this.#write({ ...this.#record("state"), state: STATES[line.do], of: this.#margin.said.ref(await this.thread(line)) });
    return {};
  }

  /** @param {any} line */
  async revise(line) {
    return this.#ofOwn(line, { ...this.#record("revised"), body: bodyOf(line, false) });
  }

  /** @param {any} line */
  async withdraw(line) {
    return this.#ofOwn(line, this.#record("taken"));
  }

  /** The thread that a request names.
   * @param {any} line */
  async thread({ to }) {
    await this.#margin.look();
    const found = this.#margin.said.of(String(to));
    if (!found || !begins(found.record.kind)) throw noThread();
    return found.id;
  }

  /** Says that a suggestion is settled, since it was accepted, so that it stays so where its text is deleted later; or that this is taken
   * back. It is said with what makes it so.
   * @param {string} id @param {boolean} isAccepted */
  #accepted(id, isAccepted) {
    const { said } = this.#margin;
    if (!said.of(id) || !(isAccepted || said.isSaidAccepted(id))) return;
    const record = { ...this.#record("state"), of: said.ref(id), state: isAccepted ? "resolved" : "open", accepts: isAccepted };
    this.#whole.writeLine(lineOf(ownFields(record)));
  }

  /** Writes a record of one of this user's, under the number under which that was written.
   * @param {any} line @param {MarginRecord} record */
  async #ofOwn({ to }, record) {
    await this.#margin.look();
    const { said } = this.#margin;
    const found = said.of(String(to));
    if (!found || !(begins(found.record.kind) || found.record.kind === "reply")) throw noThread();
    if (record.kind === "revised" && said.isTaken(found.id)) throw new Wrong("thread", "That was taken back.");
    if (!this.#whole.own.isOwn(found.site)) throw new Wrong("own", "Somebody else wrote that.");
    await this.#write({ ...record, of: said.ref(found.id) }, found.site);
    return {};
  }

  /** Writes a record, and shows it; its id.
   * @param {MarginRecord} record @param {number} [site] */
  async #write(record, site) {
    this.#typing.mayType();
    const number = site ?? this.#whole.own.number?.site ?? 0;
    const id = await this.#whole.write((at) => linesOf(record, number, at), number);
    await this.#margin.look();
    return id;
  }

  /** A record of this page's user, of now.
   * @param {string} kind @returns {MarginRecord} */
  #record(kind) {
    const by = [...this.#people.you.name].slice(0, MOST_BY).join("");
    return { kind, by, time: Math.floor(Date.now() / 1_000), sum: "", body: "", of: null, anchor: null, new: [], state: null, accepts: null,
      parts: 0, part: 0, at: [], saw: {} };
  }

  #knows() {
    const knows = this.#margin.knows();
    if (!knows) throw new Wrong("order", "The note isn't open.");
    return knows;
  }

  /** What a request is about.
   * @param {SharedText} text @param {any} line @returns {About} */
  #about(text, { version, begin, end }) {
    this.#typing.mayType();
    if (version !== this.#telling.version) throw new Wrong("version", OTHER_TEXT);
    const size = text.byteOf(end) - text.byteOf(begin);
    if (size < 0) throw new Wrong("outside", "The end is before the begin.");
    if (size > MOST_ANCHORED) throw new Wrong("long", `Something can be remarked on ${many(MOST_ANCHORED)} bytes at most. Select less.`);
    const at = text.namesOf(begin, end);
    return { at, behind: at.length ? null : text.nameBefore(begin), text: beginOf(text.slice(begin, end)) };
  }
}

/** @returns {Wrong} */
export const noThread = () => new Wrong("thread", "There is no such remark or suggestion here.");

/** @param {number} value */
const many = (value) => value.toLocaleString("en");

/** A field that is a string of whole characters.
 * @param {unknown} value @param {string} name @returns {string} */
function whole(value, name) {
  if (typeof value !== "string" || /\p{Cs}/u.test(value)) throw new Wrong("field", `${name} has to be a string of whole characters.`);
  return value;
}

/** @param {any} line @param {boolean} mayBeEmpty */
function bodyOf(line, mayBeEmpty) {
  const body = whole(line.body, "body");
  if (lengthOf(body) > MOST_OF_A_BODY) throw new Wrong("long", `That has more than ${many(MOST_OF_A_BODY)} characters.`);
  if (!mayBeEmpty && !body.trim()) throw new Wrong("field", "body has to have words.");
  return body;
}
