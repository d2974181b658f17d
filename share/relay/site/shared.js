// A note's text as an editor counts it, in UTF-16 units, over the note's value, which counts bytes and has "\r" where an editor has "\n".
import { Buffer, isAscii, isUtf8 } from "../../../library/node/bytes.js";
import { CUT, INSERT, PUT, composed } from "../../../library/node/delta.js";
import { use } from "../../../library/node/host.js";
import { Positions, decoded } from "../../../library/node/positions.js";
import { Trouble } from "./bytes.js";
import { RefusedByCore } from "./core.js";
import { PLAIN, isAlike, setting, toldOf } from "./looking.js";
import { inside } from "./rewriting.js";
import { Whereabouts } from "./spots.js";

/** @typedef {import("./value.js").Value} Value */
/** @typedef {import("./value.js").Names} Names */
/** What is between two positions gives way to a text.
 * @typedef {[number, number, string]} Change */
/** The names that an edit brought, those that it took away, and those whose looks it changed; and the suggestion that it accepted.
 * @typedef {{ came: Names[], went: Names[], looked: Looked[], accepts?: string }} Step */
/** @typedef {import("./looking.js").Look} Look */
/** @typedef {{ names: Names, was: Look, became: Look }} Looked */
/** Where what a site wrote begins and ends.
 * @typedef {{ begin: number, end: number, site: number }} Wrote */

export const TEXT = 1;
export const OTHER_TEXT = "That is of another text.";
const ENCODER = new TextEncoder();
const [LINE_FEED, RETURN] = [10, 13];
// How many characters are looked for one by one.
const FEW = 2_000;

use({ Buffer, isAscii, isUtf8, calls: null, Journal: null });

/** A note's bytes as an editor's, or an editor's as a note's.
 * @param {Uint8Array} bytes */
const swapped = (bytes) => bytes.map((byte) => (byte === LINE_FEED ? RETURN : byte === RETURN ? LINE_FEED : byte));

/** @param {string} text */
export const lengthInBytes = (text) => ENCODER.encode(text).length;

/** A note's bytes as people read them.
 * @param {Uint8Array} bytes @returns {string} */
export const readable = (bytes) => decoded(Buffer.from(swapped(bytes)));

/** Who wrote what of a stretch.
 * @param {Names[]} names those of its characters @param {number} begin @param {(byte: number) => number} unit @returns {Wrote[]} */
export function wroteOf(names, begin, unit) {
  /** @type {Wrote[]} */
  const found = [];
  let at = begin;
  for (const [site, , many] of names) {
    const [from, to] = [unit(at), unit(at + many)];
    at += many;
    const last = found[found.length - 1];
    if (last && last.site === site) last.end = to;
    else if (to > from) found.push({ begin: from, end: to, site });
  }
  return found;
}

/** An edit that isn't done, and why, with what else is to be told. */
export class Wrong extends Error {
  /** @param {string} code @param {string} words @param {object} more */
  constructor(code, words, more = {}) {
    super(words);
    this.code = code;
    this.more = more;
  }
}

export class SharedText {
  #value;
  #positions = new Positions();
  /** Where its characters are, once somebody asked, until it changes.
   * @type {Whereabouts | null} */
  #whereabouts = null;

  /** @param {Value} value */
  constructor(value) {
    this.#value = value;
    this.changed(true);
  }

  get length() {
    return this.#positions.length;
  }

  /** The text between two positions, or all of it.
   * @param {number} begin @param {number} end */
  slice(begin = 0, end = this.length) {
    return this.#read(this.#positions.byte(begin) ?? 0, this.#positions.byte(end) ?? 0);
  }

  /** What has changed since this was asked last, each as the changes before it leave the text; nothing where the text was begun anew.
   * @param {boolean} isFirst whether it wasn't asked before @returns {Change[] | null} */
  changed(isFirst = false) {
    const { isAnew, changes } = this.#value.changes(TEXT, isFirst);
    if (isAnew || changes.length) this.#whereabouts = null;
    const read = (/** @type {number} */ beg, /** @type {number} */ end) => Buffer.from(this.#value.bytes(TEXT, beg, end));
    if (isAnew) {
      this.#positions = new Positions();
      this.#positions.tell();
      changes.push({ kind: INSERT, beg: 0, end: this.#value.length(TEXT) });
    }
    this.#positions.follow(changes, read);
    /** @type {Change[]} */
    const found = [];
    let [at, cut, put] = [0, 0, 0];
    const tells = () => {
      if (cut || put) found.push([at, at + cut, this.slice(at, at + put)]);
      [at, cut, put] = [at + put, 0, 0];
    };
    const told = composed(this.#positions.tell());
    if (isAnew) return null;
    for (const { step, length } of told) {
      if (step === CUT) {
        cut += length;
      } else if (step === PUT) {
        put += length;
      } else {
        tells();
        at += length;
      }
    }
    tells();
    return found;
  }

  /** Makes a change; the names that it brings and takes away.
   * @param {Change} change @returns {Step} */
  edit([begin, end, text]) {
    const [from, to] = [this.byteOf(begin), this.byteOf(end)];
    if (to < from) throw new Wrong("outside", "A change ends before its begin.");
    const [value, bytes] = [this.#value, swapped(ENCODER.encode(text))];
    const went = value.names(TEXT, from, to);
    // What replaces a passage stands inside it, so that what others put before or behind it stays there.
    const at = text ? this.byteOf(begin + inside(this.slice(begin, end))) : from;
    if (at > from) {
      value.insert(TEXT, at, bytes);
      value.byNames(TEXT, went, false);
    } else {
      if (to > from) value.delete(TEXT, from, to);
      if (text) value.insert(TEXT, from, bytes);
    }
    this.changed();
    return { came: value.names(TEXT, from, from + bytes.length), went, looked: [] };
  }

  /** Has stretches be bold, or of a colour; whose looks that changes.
   * @param {[number, number][]} ranges @param {{ bold?: boolean, colour?: number }} set @returns {Step} */
  look(ranges, set) {
    const looked = ranges.flatMap(([begin, end]) => this.#looks(this.byteOf(begin), this.byteOf(end), (look) => setting(look, set)));
    this.changed();
    return { came: [], went: [], looked };
  }

  /** Has characters look otherwise; which do then.
   * @param {number} beg @param {number} end @param {(look: Look) => Look} sets @returns {Looked[]} */
  #looks(beg, end, sets) {
    /** @type {Looked[]} */
    const found = [];
    for (let at = beg; at < end;) {
      const { end: to, ...was } = this.#value.looksAt(TEXT, at);
      const [until, became] = [Math.min(to, end), sets(was)];
      if (!isAlike(was, became)) {
        found.push(...this.#value.names(TEXT, at, until).map((names) => ({ names, was, became })));
        this.#value.changeLooks(TEXT, at, until, became);
      }
      at = until;
    }
    return found;
  }

  /** The stretches that aren't plain, the first ones up to a number.
   * @param {number} most */
  dressed(most) {
    const size = this.#value.mayHaveLooks ? this.#value.length(TEXT) : 0;
    /** @type {{ begin: number, end: number }[]} */
    const found = [];
    for (let at = 0; at < size && found.length < most;) {
      const { end, ...look } = this.#value.looksAt(TEXT, at);
      const told = toldOf(look);
      if (Object.keys(told).length) found.push({ begin: this.#positions.unit(at), end: this.#positions.unit(end), ...told });
      at = end;
    }
    return found;
  }

  /** Takes an edit back by its names; what that changes. What others have changed since stays.
   * @param {Step} step @returns {Step} */
  takeBack(step) {
    const { came, went, looked } = step;
    const [goes, comes] = [came.flatMap((names) => this.#parts(names, true)), went.flatMap((names) => this.#parts(names, false))];
    this.#value.byNames(TEXT, goes, false);
    this.#value.byNames(TEXT, comes, true);
    const looks = looked.flatMap(({ names, was, became }) => this.#stretches(names).flatMap(([beg, end]) => (
      this.#looks(beg, end, (look) => (isAlike(look, became) ? was : look)))));
    return { ...step, came: comes, went: goes, looked: looks };
  }

  /** Types passages, in their looks, each behind a character as far as that is here, and else at the end.
   * @param {import("./passages.js").Passage[]} passages @returns {Step} */
  put(passages) {
    const came = passages.flatMap(({ cause, bytes, looks }) => {
      const at = cause === null ? 0 : (cause && this.find(cause)?.pos) ?? this.#value.length(TEXT);
      this.#value.insert(TEXT, at, bytes);
      let begin = at;
      for (const { many, look } of looks) {
        if (!isAlike(look, PLAIN)) this.#value.changeLooks(TEXT, begin, begin + many, look);
        begin += many;
      }
      return this.#value.names(TEXT, at, at + bytes.length);
    });
    return { came, went: [], looked: [] };
  }

  /** Types a text inside a passage that it is to replace, and hides it; its names.
   * @param {Change} change @returns {Names[]} */
  suggest([begin, end, text]) {
    const [value, bytes] = [this.#value, swapped(ENCODER.encode(text))];
    if (!text) return [];
    const at = this.byteOf(begin + inside(this.slice(begin, end)));
    value.insert(TEXT, at, bytes);
    const names = value.names(TEXT, at, at + bytes.length);
    value.byNames(TEXT, names, false);
    this.changed();
    return names;
  }

  /** Behind how many shown characters those of names are, or would be: the least and the greatest of these.
   * @param {Names[]} names */
  placesOf(names) {
    let [first, last] = [Infinity, 0];
    for (const [site, offset, many] of names) {
      for (let at = offset; at < offset + many; at += 1) {
        const found = this.#value.find(TEXT, site, at);
        const place = found ? found.pos - Number(found.isShown) : 0;
        [first, last] = [Math.min(first, place), Math.max(last, place)];
      }
    }
    return { first, last };
  }

  /** What stands between two bytes, with some characters hidden and others shown, which are hidden now.
   * @param {number} from @param {number} to @param {Names[]} went @param {Names[]} came @param {string} put what came, in its order */
  replaced(from, to, went, came, put) {
    const [value, bytes, shown] = [this.#value, swapped(ENCODER.encode(put)), this.#value.bytes(TEXT, from, to)];
    const isGone = (/** @type {number} */ site, /** @type {number} */ offset) => (
      went.some(([of, begin, many]) => of === site && offset >= begin && offset < begin + many));
    const places = came.flatMap(([site, begin, many]) => Array.from({ length: many }, (_, at) => this.placesOf([[site, begin + at, 1]]).first));
    const order = Array.from(places.keys()).sort((one, other) => places[one] - places[other] || one - other);
    const stays = value.names(TEXT, from, to).flatMap(([site, begin, many]) => Array.from({ length: many }, (_, at) => !isGone(site, begin + at)));
    /** @type {number[]} */
    const found = [];
    for (let [at, next] = [from, 0]; at <= to; at += 1) {
      for (; next < order.length && places[order[next]] <= at; next += 1) found.push(bytes[order[next]]);
      if (at < to && stays[at - from]) found.push(shown[at - from]);
    }
    return readable(Uint8Array.from(found));
  }

  /** The names of a stretch's characters.
   * @param {number} begin @param {number} end */
  namesOf(begin, end) {
    return this.#value.names(TEXT, this.byteOf(begin), this.byteOf(end));
  }

  /** What stands between two bytes.
   * @param {number} from @param {number} to */
  between(from, to) {
    return this.#read(from, to);
  }

  /** Which of neighbouring names are shown, or which aren't.
   * @param {Names} names @param {boolean} shown @returns {Names[]} */
  #parts([site, offset, length], shown) {
    const parts = this.#stretches([site, offset, length]).map(([beg, end, first]) => [first, first + end - beg]);
    if (shown) return parts.map(([first, last]) => [site, first, last - first]);
    const ends = [offset, ...parts.flat(), offset + length];
    return ends.flatMap((begin, at) => (at % 2 === 0 && ends[at + 1] > begin ? [[site, begin, ends[at + 1] - begin]] : []));
  }

  /** Where of neighbouring names those are that are shown: from where to where, and the offset of the first.
   * @param {Names} names @returns {[number, number, number][]} */
  #stretches([site, offset, length]) {
    const [first, last] = [offset, offset + length - 1].map((one) => this.#value.find(TEXT, site, one));
    if (!first || !last) return [];
    let at = first.pos - Number(first.isShown);
    /** @type {[number, number, number][]} */
    const found = [];
    for (const [of, from, many] of this.#value.names(TEXT, at, last.pos)) {
      const [begin, end] = [Math.max(from, offset), Math.min(from + many, offset + length)];
      if (of === site && begin < end) found.push([at + begin - from, at + end - from, begin]);
      at += many;
    }
    return found;
  }

  /** Who wrote what of a stretch.
   * @param {number} begin @param {number} end */
  wrote(begin, end) {
    const at = this.byteOf(begin);
    return wroteOf(this.#value.names(TEXT, at, this.byteOf(end)), at, (byte) => this.unit(byte));
  }

  /** The names of all characters. */
  names() {
    return this.#value.names(TEXT, 0, this.#value.length(TEXT));
  }

  /** Where its characters are. */
  whereabouts() {
    return (this.#whereabouts ??= new Whereabouts(this.names()));
  }

  /** Where some characters are that are shown, of a text of very many; nothing where none is.
   * @param {Names} names @returns {import("./spots.js").Extent | null} */
  extentOf(names) {
    const [site, at, length] = names;
    const [first, last] = [this.find([site, at]), this.find([site, at + length - 1])];
    if (!first || !last || length > FEW) return this.whereabouts().of(names);
    const begin = first.pos - Number(first.isShown);
    const found = begin < last.pos ? new Whereabouts(this.#value.names(TEXT, begin, last.pos), begin).of(names) : null;
    if (found?.many === length) return found;
    let many = 0;
    for (let offset = at; offset < at + length; offset += 1) many += Number(this.find([site, offset])?.isShown);
    // Whoever types in another order has the first and the last stand anywhere.
    return many === (found?.many ?? 0) ? found : this.whereabouts().of(names);
  }

  /** Where a character is, as of how many shown ones it is the last one, or would be behind; nothing where it isn't here.
   * @param {[number, number]} name */
  find([site, offset]) {
    return this.#value.find(TEXT, site, offset);
  }

  /** How many messages of each site count. */
  fronts() {
    return this.#value.fronts(TEXT);
  }

  /** The text as it was when so many messages of each site counted.
   * @param {[number, number][]} fronts */
  past(fronts) {
    return this.#value.past(TEXT, fronts);
  }

  /** How many units the characters have that begin before a byte.
   * @param {number} byte @returns {number} */
  unit(byte) {
    return this.#positions.unit(byte);
  }

  /** The unit at which a byte is; within a character that of its begin.
   * @param {number} byte @returns {number} */
  unitAt(byte) {
    let at = byte;
    while (at > 0 && this.#positions.byte(this.#positions.unit(at)) !== at) at -= 1;
    return this.#positions.unit(at);
  }

  /** The name of the character before a place, as others are told where a cursor is; zeros at the front.
   * @param {number} unit @returns {[number, number]} */
  nameBefore(unit) {
    const at = this.byteOf(unit);
    if (!at) return [0, 0];
    const [[site, offset]] = this.#value.names(TEXT, at - 1, at);
    return [site, offset];
  }

  /** Where a place is that others told; nothing where its character isn't here.
   * @param {[number, number]} name */
  placeOf([site, offset]) {
    if (!site) return 0;
    const found = this.#value.find(TEXT, site, offset);
    return found && this.#positions.unit(found.pos);
  }

  /** @param {number} unit @returns {number} */
  byteOf(unit) {
    if (!Number.isInteger(unit) || unit < 0 || unit > this.length) throw new Wrong("outside", `Position ${unit} is outside the text.`);
    const byte = this.#positions.byte(unit);
    if (byte === undefined) throw new Wrong("split", `Position ${unit} is inside a character.`);
    return byte;
  }

  /** @param {number} beg @param {number} end @returns {string} */
  #read(beg, end) {
    return end > beg ? readable(this.#value.bytes(TEXT, beg, end)) : "";
  }
}

/** What went wrong, as a page is answered it.
 * @param {unknown} why */
export function errorOf(why) {
  if (why instanceof Wrong) return { error: why.code, words: why.message, ...why.more };
  if (why instanceof RefusedByCore) return { error: "refused", words: why.message, number: why.number };
  if (why instanceof Trouble) return { error: "failed", words: why.message };
  reportError(why);
  return { error: "failed", words: `This page has a fault: ${why}` };
}
