// Who is on at a note, as docs/NOTES.md has it: this page says so of itself, and hears others. A relay passes it on and keeps nothing.
import { equal, hex, join, number, numberAt, random } from "./bytes.js";
import { boxed, unboxed } from "./keys.js";

/** @typedef {import("./keys.js").NoteKeys} NoteKeys */
/** A place in a text, by the site and the offset of the character before it; zeros at the front.
 * @typedef {[number, number]} Place */
/** What an editor says of itself.
 * @typedef {{ engine: Uint8Array, editor: Uint8Array, site: number, colour: string, name: string, count: number, leaves: boolean,
 *   cursor: Place | null, anchor: Place | null }} Shown */
/** What an engine says of itself: that it is on, and how it hears others.
 * @typedef {{ engine: Uint8Array, count: number, hears: number }} Beat */
/** What somebody is called.
 * @typedef {{ name: string, colour: string }} Person */
/** Somebody who is on, and where.
 * @typedef {Person & { who: string, site: number, cursor: Place | null, anchor: Place | null, own: boolean }} Present */

export const HEARS = { table: 0, channel: 1, fromNow: 2, nothing: 3 };
const [ENGINE_BYTES, EDITOR_BYTES, HEAD_BYTES, NAME_BYTES, BEAT_BYTES] = [8, 16, 50, 160, 216];
const [FLAGS_AT, HEARS_AT, MOST_PRESENCE, NONCE_BYTES, BOX_TAG_BYTES, OF_PRESENCE] = [37, 189, 256, 12, 16, 5];
const [MOST_NAME, MOST_TOKENS, MOST_SHOWN] = [40, 4_096, 200];
// How often one says that one is on, how long one is on then, how soon all is said again to who has come, and how often where one is.
const [BEAT_MS, ON_MS, AGAIN_MS, MOVED_MS] = [5_000, 15_000, 1_000, 100];
const [HAS_CURSOR, HAS_ANCHOR, TEXT_BIT, MOST_OFFSET] = [1, 2, 4, 2 ** 24];
/** @type {Place} */
const AT_FRONT = [0, 0];
// What a name doesn't have: controls, what turns the direction of writing, and what is no character.
const NO_NAME = /[\p{Cc}\p{Cs}\u061c\u200e\u200f\u2028-\u202e\u2066-\u2069]/gu;

/** The time by a clock that nobody sets. */
const now = () => performance.now();

/** A name as it is shown.
 * @param {string} name */
export const clean = (name) => [...name.replace(NO_NAME, "").trim()].slice(0, MOST_NAME).join("");

/** @param {Uint8Array} bytes @param {number} size */
function filled(bytes, size) {
  const found = new Uint8Array(size);
  found.set(bytes.subarray(0, size));
  return found;
}

/** What an editor says.
 * @param {Shown} one */
export function ofEditor({ engine, editor, site, colour, name, count, leaves, cursor, anchor }) {
  const digits = colour.match(/[0-9a-f]{2}/gi) ?? [];
  const named = filled(join(name.replace(/\p{Cs}/gu, "")), NAME_BYTES);
  const places = [cursor, anchor].flatMap((one) => [number((one ?? AT_FRONT)[0], 2), number((one ?? AT_FRONT)[1], 4)]);
  return join(engine, number(0, 4), number(count, 4), editor, number(site, 2), digits.map((two) => parseInt(two, 16)),
    [(cursor ? HAS_CURSOR : 0) | (anchor ? HAS_ANCHOR : 0)], ...places, named, leaves ? [0] : []);
}

/** What an engine says, which lacks nothing.
 * @param {Beat} one */
export const ofEngine = ({ engine, count, hears }) => join(engine, new Uint8Array(8), number(count, 4),
  new Uint8Array(HEARS_AT - 20), [hears], new Uint8Array(BEAT_BYTES - HEARS_AT - 1));

/** A place that is told at some bytes, if it is one.
 * @param {Uint8Array} data @param {number} at @param {number} flag @returns {Place | null} */
function placeIn(data, at, flag) {
  const [site, offset] = [numberAt(data, at, 2), numberAt(data, at + 2, 4)];
  // Of another text its characters have the names of others here.
  return (data[FLAGS_AT] & flag) && data[FLAGS_AT] < 2 ** TEXT_BIT && offset < MOST_OFFSET && (site || !offset) ? [site, offset] : null;
}

/** What an editor has said; nothing where these bytes are something else.
 * @param {Uint8Array} data @returns {Shown | null} */
export function readEditor(data) {
  if (data.length < HEAD_BYTES || data.length > HEAD_BYTES + NAME_BYTES + 1 || numberAt(data, ENGINE_BYTES, 4) > 0) return null;
  const name = new TextDecoder().decode(data.subarray(HEAD_BYTES, HEAD_BYTES + NAME_BYTES)).replaceAll("\ufffd", "");
  return { engine: data.slice(0, ENGINE_BYTES), editor: data.slice(16, 16 + EDITOR_BYTES), site: numberAt(data, 32, 2),
    colour: `#${hex(data.subarray(34, FLAGS_AT))}`, name: clean(name), count: numberAt(data, 12, 4),
    cursor: placeIn(data, FLAGS_AT + 1, HAS_CURSOR), anchor: placeIn(data, FLAGS_AT + 7, HAS_ANCHOR),
    leaves: data.length === HEAD_BYTES + NAME_BYTES + 1 };
}

/** What an engine has said.
 * @param {Uint8Array} data @returns {Beat | null} */
export function readEngine(data) {
  if (data.length !== BEAT_BYTES || numberAt(data, ENGINE_BYTES, 4) + numberAt(data, 12, 4) > 0) return null;
  return { engine: data.slice(0, ENGINE_BYTES), count: numberAt(data, 16, 4), hears: data[HEARS_AT] };
}

/** @param {NoteKeys} keys @param {Uint8Array} data */
export async function sealedPresence(keys, data) {
  const beside = join([OF_PRESENCE], keys.identity);
  const nonce = await keys.nonceOf(join(beside, data));
  return join(nonce, await boxed(keys.presence, nonce, data, beside));
}

/** What presence says that a member of the note has sealed; nothing where it is something else.
 * @param {NoteKeys} keys @param {Uint8Array} raw */
export async function openedPresence(keys, raw) {
  if (raw.length < NONCE_BYTES + BOX_TAG_BYTES || raw.length > MOST_PRESENCE) return null;
  const [nonce, beside] = [raw.slice(0, NONCE_BYTES), join([OF_PRESENCE], keys.identity)];
  const data = await unboxed(keys.presence, nonce, raw.slice(NONCE_BYTES), beside);
  return data && equal(nonce, await keys.nonceOf(join(beside, data))) ? data : null;
}

/** The greatest count that was heard under each name; who was silent longest is forgotten first. */
class Voices {
  /** @type {Map<string, { count: number, at: number }>} */
  #heard = new Map();

  /** Whether this says more than was heard.
   * @param {string} name @param {number} count */
  hears(name, count) {
    const known = this.#heard.get(name);
    if (known && count <= known.count) return false;
    this.#heard.delete(name);
    this.#heard.set(name, { count, at: now() });
    if (this.#heard.size > MOST_TOKENS) this.#heard.delete(this.#heard.keys().next().value ?? "");
    return true;
  }

  /** @param {string} name */
  isOn(name) {
    return now() - (this.#heard.get(name)?.at ?? -Infinity) < ON_MS;
  }
}

/** Says that this page is on, while there is a line to the relay, and gives who else is. */
export class Presence {
  #keys;
  #say;
  #changed;
  #engine = random(ENGINE_BYTES);
  #editor = random(EDITOR_BYTES);
  #count = 0;
  /** @type {Person & { site: number }} */
  #you = { name: "", colour: "#000000", site: 0 };
  #isUp = false;
  // When one says again that one is on, and all to who has come.
  #due = 0;
  #mayAgain = 0;
  #hasCome = false;
  #engines = new Voices();
  #editors = new Voices();
  /** Those who hear what is said.
   * @type {Map<string, string>} */
  #hears = new Map();
  /** @type {Map<string, Shown>} */
  #shown = new Map();
  /** @type {Set<string>} */
  #own = new Set();
  #told = "[]";
  #turn = Promise.resolve();
  #timer;
  /** @type {{ cursor: Place | null, anchor: Place | null }} */
  #places = { cursor: null, anchor: null };
  /** @type {ReturnType<typeof setTimeout> | undefined} */
  #moving;

  /** @param {NoteKeys} keys @param {(raw: Uint8Array) => void} say @param {() => void} changed is called as somebody comes or goes */
  constructor(keys, say, changed) {
    this.#keys = keys;
    this.#say = say;
    this.#changed = changed;
    this.#timer = setInterval(() => this.#next(() => this.#sayDue()), AGAIN_MS);
  }

  /** Those who are on beside this page; other tabs of this browser are its user's own.
   * @returns {Present[]} */
  people() {
    const on = [...this.#shown].filter(([, { engine }]) => this.#isOn(hex(engine))).slice(0, MOST_SHOWN);
    return on.map(([who, { engine, name, colour, site, cursor, anchor }]) => (
      { who, name, colour, site, cursor, anchor, own: this.#own.has(hex(engine)) }))
      .sort((one, other) => one.name.localeCompare(other.name));
  }

  /** Takes over what this page's user is called.
   * @param {Person & { site: number }} you */
  isCalled(you) {
    const isNew = Object.entries(you).some(([name, value]) => this.#you[/** @type {keyof Person} */ (name)] !== value);
    this.#you = you;
    if (isNew && this.#isUp) this.#next(() => this.#showYou(false));
  }

  /** Takes over where this page's user is in the text, which is told where somebody is there to hear it.
   * @param {Place | null} cursor @param {Place | null} anchor */
  isAt(cursor, anchor) {
    this.#places = { cursor, anchor };
    if (!this.#isUp || !this.people().length || this.#moving) return;
    this.#moving = setTimeout(() => {
      this.#moving = undefined;
      this.#next(() => this.#showYou(false));
    }, MOVED_MS);
  }

  /** There is a line, from now on. */
  up() {
    if (this.#isUp) return;
    this.#isUp = true;
    this.#next(async () => {
      await this.#beat(HEARS.fromNow);
      await this.#showYou(false);
    });
  }

  /** There is none. */
  down() {
    if (!this.#isUp) return;
    this.#isUp = false;
    this.#hears.clear();
    this.#tell();
  }

  /** Takes over what somebody said, or another tab of this browser.
   * @param {Uint8Array} raw */
  heard(raw, isOwn = false) {
    this.#next(async () => {
      const data = await openedPresence(this.#keys, raw);
      if (!data || equal(data.slice(0, ENGINE_BYTES), this.#engine)) return;
      if (isOwn) this.#own.add(hex(data.slice(0, ENGINE_BYTES)));
      const [beat, shown] = [readEngine(data), readEditor(data)];
      if (beat) this.#heardEngine(beat);
      else if (shown) this.#heardEditor(shown);
      // Of a page that isn't seen the clock seldom rings.
      await this.#sayDue();
    });
  }

  /** Says that this page is on no more. */
  leave() {
    clearInterval(this.#timer);
    clearTimeout(this.#moving);
    this.#next(async () => {
      await this.#showYou(true);
      await this.#beat(HEARS.nothing);
    });
    return this.#turn;
  }

  /** @param {string} engine */
  #isOn(engine) {
    return this.#hears.has(engine) && this.#engines.isOn(engine);
  }

  /** @param {Beat} beat */
  #heardEngine({ engine, count, hears }) {
    const name = hex(engine);
    if (!this.#engines.hears(name, count)) return;
    if (hears === HEARS.nothing) this.#hears.delete(name);
    else this.#hears.set(name, "");
    if (this.#hears.size > MOST_TOKENS) this.#hears.delete(this.#hears.keys().next().value ?? "");
    this.#hasCome ||= hears === HEARS.fromNow;
  }

  /** @param {Shown} shown */
  #heardEditor(shown) {
    const name = hex(join(shown.engine, shown.editor));
    if (!this.#editors.hears(name, shown.count)) return;
    this.#shown.delete(name);
    if (!shown.leaves) this.#shown.set(name, shown);
    if (this.#shown.size > MOST_TOKENS) this.#shown.delete(this.#shown.keys().next().value ?? "");
  }

  /** Says what is due, and tells where others came or went. */
  async #sayDue() {
    const time = now();
    const isAgain = this.#hasCome && time >= this.#mayAgain;
    if (this.#isUp && (isAgain || time >= this.#due)) await this.#beat(HEARS.channel);
    if (this.#isUp && isAgain) {
      [this.#hasCome, this.#mayAgain] = [false, time + AGAIN_MS];
      await this.#showYou(false);
    }
    this.#tell();
  }

  #tell() {
    const told = JSON.stringify(this.people());
    if (told === this.#told) return;
    this.#told = told;
    this.#changed();
  }

  /** @param {number} hears */
  async #beat(hears) {
    this.#due = now() + BEAT_MS;
    this.#say(await sealedPresence(this.#keys, ofEngine({ engine: this.#engine, count: this.#counted(), hears })));
  }

  /** @param {boolean} leaves */
  async #showYou(leaves) {
    const one = { ...this.#you, ...this.#places, engine: this.#engine, editor: this.#editor, count: this.#counted(), leaves };
    this.#say(await sealedPresence(this.#keys, ofEditor(one)));
  }

  #counted() {
    this.#count += 1;
    return this.#count;
  }

  /** One thing after the other, so that counts rise as they are heard.
   * @param {() => Promise<void>} work */
  #next(work) {
    this.#turn = this.#turn.then(work).catch((why) => reportError(why));
  }
}
