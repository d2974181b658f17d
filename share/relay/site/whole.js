// A note that is open in this tab as a whole site. It shows the text of others' entries, and makes entries of this user's edits, under a
// number that no other tab has meanwhile.
import { Trouble, hex } from "./bytes.js";
import { writtenBeside } from "./beside.js";
import { Feed } from "./feed.js";
import { Followed } from "./followed.js";
import { historyOf } from "./history.js";
import { leftOutInWords, passagesOfOwn, toldOfLost, wordsOf } from "./lost.js";
import { Own } from "./own.js";
import { MARGIN, idOf } from "./record.js";
import { SharedText, TEXT, Wrong } from "./shared.js";
import { Spare } from "./spare.js";

/** @typedef {import("./shared.js").Change} Change */
/** The view of the note.
 * - `isBusy` returns whether others' text must wait.
 * - `changed` is called with others' changes, or with null after the text was read from scratch.
 * - `unkept` is called with the reason why edits are taken out again.
 * - `kept` is called with the number of the last edit on the disk.
 * - `reads` is called with the part of the log that is read.
 * - `stands` is called after other changes of the state, and `says` with words for the user.
 * @typedef {{ isBusy: () => boolean, changed: (changes: Change[] | null) => void, unkept: (words: string) => void,
 *   kept: (edits: number) => void, reads: (done: number, of: number) => void, stands: () => void, says: (words: string) => void }} Ear */

export const NO_NUMBER = "Nothing can be typed yet: a number is searched for.";
const NOTHING_LOST = "Nothing that you typed is left out.";
// Milliseconds until the page tries again to show others' text.
const AGAIN_MS = 20;

export class Whole {
  /** @type {SharedText | null} */
  text = null;
  /** The text that is left out for good.
   * @type {import("./lost.js").LeftOut[]} */
  leftOut = [];
  own;
  followed;
  #ear;
  #core;
  #store;
  #keys;
  #note;
  // The feed of entries, and the feed of the shown text. They differ while the text is read from scratch.
  #feed;
  /** @type {Feed | null} */
  #shown = null;
  #spare;
  // Up to which of the editor's edits all was said, or is about to be; whether something that was done isn't said yet; and who waits until
  // all is kept.
  #edits = 0;
  #isUnsaid = false;
  /** @type {{ done: () => void, failed: (why: Error) => void }[]} */
  #waiters = [];
  // The messages that are left out for good; the words that this user typed them again, until these are said; and whether others' entries
  // were shown since the page looked for such messages.
  /** @type {import("./sayings.js").LeftOut[]} */
  #lost = [];
  /** @type {import("./own.js").Word[]} */
  #words = [];
  #hasNews = false;
  #turn = Promise.resolve();
  /** @type {ReturnType<typeof setTimeout> | undefined} */
  #later;
  #hasEnded = false;
  #isDue = false;
  // Why nothing is shown, as it was said last; and whether more of the log was about to come then.
  #why = "";
  #wasReading = false;

  /** @param {import("./core.js").Core} core @param {import("./store.js").Store} store @param {import("./keys.js").NoteKeys} keys
   * @param {import("./store.js").Note} note @param {Ear} ear */
  constructor(core, store, keys, note, ear) {
    [this.#core, this.#store, this.#keys, this.#note, this.#ear] = [core, store, keys, note, ear];
    this.own = new Own(store, keys, note.id, {
      kept: (edits, many) => this.#kept(edits, many), failed: () => this.#failed(), recovered: () => this.#recovered(),
      says: (words) => this.#ear.says(words),
    });
    this.#spare = new Spare(store, keys, note.id, () => this.#taken());
    this.#feed = this.#newFeed();
    this.followed = new Followed(store, keys, note.url, (hasEntries) => this.#came(hasEntries), () => this.#keepSpare());
    this.#next(async () => {
      await this.#takeNumber();
      await this.#feedOn();
    });
  }

  /** The facts of the note that need no text. */
  get facts() {
    return this.#feed.facts;
  }

  /** All sayings that are shown, and how many of them count in the margin and in the text.
   * @returns {import("./notemargin.js").Counting | null} */
  get counting() {
    const { value, sayings } = this.#shown ?? {};
    return value && sayings ? { sayings, margin: new Map(value.fronts(MARGIN)), text: new Map(value.fronts(TEXT)) } : null;
  }

  /** Whether something can be typed. */
  get types() {
    return Boolean(this.text && !this.own.failure && this.own.number && this.own.number.site === this.#shown?.site);
  }

  /** Whether a number is searched for. */
  get isSearching() {
    return this.#spare.isSearching && !this.own.number;
  }

  /** Note an edit, an undo or looks, which the text shows already. Others' text is shown once the earlier sayings are kept.
   * @param {number} edits */
  made(edits) {
    [this.#edits, this.#isUnsaid] = [edits, true];
    if (this.#isDue) return;
    this.#isDue = true;
    // After what the editor does in one go, and before the page shows it.
    queueMicrotask(() => {
      this.#isDue = false;
      if (this.#hasEnded) return;
      if (this.own.waiting) this.#say();
      else this.#show();
    });
  }

  /** Writes lines into the margin, which are made of how much this number wrote there before; the id of the first once they are on the disk.
   * @param {(at: number) => Promise<Uint8Array[]>} makes @param {number} site a number of this browser's user, which may be another's tab */
  async write(makes, site = this.own.number?.site ?? 0) {
    if (site !== this.own.number?.site) {
      const id = await writtenBeside(this.#core, this.#store, this.#keys, this.#note.id, site, makes, (words) => this.#ear.says(words));
      this.followed.kept();
      this.#came(true);
      await this.#turn;
      return id;
    }
    await this.kept();
    const { sayings, margin } = this.counting ?? {};
    const lines = await makes((await sayings?.line(MARGIN, site, margin?.get(site) ?? 0))?.length ?? 0);
    if (!this.types) throw new Wrong("number", NO_NUMBER);
    const [id] = lines.map((line) => this.writeLine(line));
    await this.kept();
    return id;
  }

  /** Write a line into the margin, under this tab's number. Return the id of its record.
   * @param {Uint8Array} line */
  writeLine(line) {
    const value = /** @type {import("./value.js").Value} */ (this.#shown?.value);
    value.insert(MARGIN, 0, line);
    this.made(this.#edits);
    const [[site, at]] = value.names(MARGIN, 0, 1);
    return idOf(site, at);
  }

  /** Ends once all that was done is on the disk.
   * @returns {Promise<void>} */
  kept() {
    if (!this.#isUnsaid && !this.own.waiting) return Promise.resolve();
    return new Promise((done, failed) => { this.#waiters.push({ done, failed }); });
  }

  /** Type this user's left-out text again, by `types`, and write entries that say so. Return the left-out text.
   * @param {(passages: import("./passages.js").Passage[]) => void} types */
  async recover(types) {
    const { sayings } = this.#shown ?? {};
    const own = this.#lost.filter((one) => this.#isOwn(one));
    const words = sayings ? await wordsOf(sayings, own) : [];
    if (!sayings || !words.length || own.some((one) => !this.#lost.includes(one))) throw new Wrong("order", NOTHING_LOST);
    const told = this.leftOut.filter((one) => one.own);
    types(passagesOfOwn(sayings, own));
    this.#words = words;
    for (const word of words) sayings.wasMadeAnew(word);
    this.#next(() => this.#seesLost());
    await this.kept();
    return told;
  }

  /** How the text came to be, without replacements that are suggested.
   * @param {import("./value.js").Names[]} suggested */
  async history(suggested) {
    const [{ entries }, { facts }] = [await this.#store.entries(this.#note.id), this];
    const holders = new Map(facts.numbers().map(({ site, author }) => [site, author]));
    return historyOf(entries, this.#keys, TEXT, holders, new Map(this.text?.fronts()), suggested);
  }

  /** Ends once all is kept; edits are counted from 0 then. */
  async settled() {
    await this.own.settled();
    // There may be edits since.
    if (this.#isUnsaid) this.#show();
    await this.own.settled();
    this.#edits = 0;
  }

  close() {
    this.#hasEnded = true;
    if (this.types && this.#isUnsaid) this.#say();
    clearTimeout(this.#later);
    this.own.close();
    this.#spare.close();
    this.followed.close(this.own.settled());
  }

  #newFeed() {
    return new Feed(this.#core, this.#store, this.#keys, this.#note.id, this.own.number?.site ?? 0);
  }

  /** One thing after the other; what went wrong is said.
   * @param {() => Promise<unknown>} work */
  #next(work) {
    this.#turn = this.#turn.then(() => (this.#hasEnded ? undefined : work())).then(() => {}, (why) => {
      if (this.#hasEnded) return;
      if (!(why instanceof Trouble)) reportError(why);
      this.#ear.says(why.message);
    });
  }

  /** @param {boolean} hasEntries */
  #came(hasEntries) {
    if (hasEntries) this.#next(() => this.#feedOn());
    else this.#ear.stands();
    const { isReading } = this.followed;
    if (this.#wasReading && !isReading) {
      this.#next(async () => this.#looksForLost());
      this.#next(() => this.#takeNumber());
    }
    this.#wasReading = isReading;
    this.#next(async () => this.#saysWhy());
  }

  /** Says once why nothing is shown, where all was read. */
  #saysWhy() {
    const { isUp, read, of } = this.followed.standing;
    const why = isUp && read >= of ? this.#feed.why : this.#why;
    if (why && why !== this.#why) this.#ear.says(why);
    this.#why = why;
  }

  async #feedOn() {
    await this.#fed(await this.#feed.next((done, of) => this.#ear.reads(done, of)));
  }

  /** Show the entries that were read, if there are more. Take another number if this one is somebody else's.
   * @param {boolean} hasMore */
  async #fed(hasMore) {
    const leaves = this.#isTaken() ? this.#leave() : null;
    if (hasMore) this.#show();
    this.#ear.stands();
    if (leaves) await this.#takeNext(leaves);
  }

  /** Leaves the number, after all that was typed under it. */
  #leave() {
    this.#say();
    return this.own.leave();
  }

  /** Take another number, and read the text from scratch.
   * @param {Promise<void>} leaves */
  async #takeNext(leaves) {
    await leaves;
    await this.own.settled();
    await this.#takeNumber();
  }

  /** Look for messages that are left out for good. If some are of this tab's number, leave it: later edits under it could be lost, too. */
  async #seesLost() {
    const { value, sayings } = this.#shown ?? {};
    if (!value || !sayings) return;
    const lost = await sayings.leftOut(TEXT, new Map(value.fronts(TEXT)));
    if (lost !== this.#lost) this.#tellsLost(lost);
    const { number } = this.own;
    const [site, author] = number ? [number.site, hex(number.author.name)] : [0, ""];
    const isBroken = sayings.isForked(author, site) || lost.some(({ line }) => line.site === site && line.author === author);
    const leaves = isBroken ? this.#leave() : null;
    this.#ear.stands();
    if (leaves) await this.#takeNext(leaves);
  }

  /** @param {import("./sayings.js").LeftOut[]} lost */
  #tellsLost(lost) {
    const before = this.#lostOfOwn;
    this.#lost = lost;
    this.leftOut = lost.map((one) => toldOfLost(one, this.#isOwn(one))).filter(({ characters }) => characters > 0);
    if (this.#lostOfOwn > before) this.#ear.says(leftOutInWords(this.#lostOfOwn));
  }

  /** The number of this user's characters that are left out. */
  get #lostOfOwn() {
    return this.leftOut.reduce((sum, { own, characters }) => sum + (own ? characters : 0), 0);
  }

  /** @param {import("./sayings.js").LeftOut} lost */
  #isOwn({ line }) {
    return this.own.isOwnAuthor(line.author);
  }

  #isTaken() {
    const { number } = this.own;
    return this.facts.numbers().some(({ site, author }) => number?.site === site && author !== hex(number.author.name));
  }

  /** Shows what counts now, once the editor is ready for it. Before that all own edits become entries, which the value is given as it is
   * given others': else it would take them back. */
  #show() {
    clearTimeout(this.#later);
    const { value } = this.#feed;
    if (!value) return;
    if (this.#shown === this.#feed) this.#say();
    if (this.#ear.isBusy()) {
      this.#later = setTimeout(() => this.#show(), AGAIN_MS);
      return;
    }
    if (this.#shown !== this.#feed) {
      this.#begins();
      this.#say();
    }
    this.#hasNews = this.#feed.hand() || this.#hasNews;
    value.update();
    const changes = this.text ? this.text.changed() : null;
    this.text ??= new SharedText(value);
    this.#ear.changed(changes);
    this.#ear.stands();
    this.#looksForLost();
  }

  /** Look for messages that are left out for good, if others' entries were shown since. While the log is read, later entries may make them
   * count. */
  #looksForLost() {
    if (!this.#hasNews || this.followed.isReading) return;
    this.#hasNews = false;
    this.#next(() => this.#seesLost());
  }

  /** Show the text of the new feed from now on. */
  #begins() {
    this.#shown?.close();
    [this.#shown, this.text, this.own.failure, this.#words] = [this.#feed, null, "", []];
  }

  #say() {
    const [{ number }, shown] = [this.own, this.#shown];
    if (!number || this.own.failure || number.site !== shown?.site) return;
    this.#isUnsaid = false;
    const said = shown.say([TEXT, MARGIN], number);
    said.forEach((one, at) => this.own.say(one, this.#edits, at === said.length - 1 ? this.#words.splice(0) : []));
    // An edit that did nothing is answered, too.
    if (!this.own.waiting) this.#ear.kept(this.#edits);
    if (!this.own.waiting) for (const { done } of this.#waiters.splice(0)) done();
  }

  /** @param {number} edits @param {number} many how many entries they are */
  #kept(edits, many) {
    this.followed.kept(many);
    this.#ear.kept(edits);
    if (!this.own.waiting && this.#isUnsaid) this.#show();
    else if (!this.own.waiting) for (const { done } of this.#waiters.splice(0)) done();
    this.#ear.stands();
  }

  /** Note that sayings of a closed tab are on the disk. */
  #recovered() {
    this.followed.kept();
    this.#came(true);
    // Their number is free now.
    this.#next(() => this.#takeNumber());
  }

  /** Take out the edits that can't be kept. */
  #failed() {
    this.#ear.unkept(this.own.failure);
    this.#isUnsaid = false;
    for (const { failed } of this.#waiters.splice(0)) failed(new Wrong("unkept", this.own.failure));
    this.#next(() => this.#anew());
  }

  /** Read the note from scratch. Until then the old text is shown, and takes no edits. */
  async #anew() {
    const feed = this.#newFeed();
    await feed.next((done, of) => this.#ear.reads(done, of));
    try {
      await feed.handInSlices((done, of) => this.#ear.reads(done, of));
    } catch (why) {
      feed.close();
      throw why;
    }
    if (this.#feed !== this.#shown) this.#feed.close();
    [this.#feed, this.#hasNews] = [feed, true];
    await this.#fed(true);
  }

  // The number.

  /** Take a number, for which the text is read from scratch. While the log is read this waits. */
  async #takeNumber() {
    if (this.own.number || this.followed.isReading) return;
    const site = await this.own.take(this.facts.taken());
    if (!site) {
      this.#keepSpare();
      return;
    }
    this.followed.site = site;
    this.followed.isCalled();
    await this.#anew();
  }

  /** Return the numbers that somebody has, once this moment's entries are read. */
  async #taken() {
    await this.#turn;
    return this.facts.taken();
  }

  /** Has a number be there that is searched for, and be taken where this tab has none. */
  #keepSpare() {
    this.#spare.keep().then(() => this.#next(() => this.#takeNumber())).catch((why) => this.#ear.says(why.message))
      .finally(() => this.#ear.stands());
    this.#ear.stands();
  }
}
