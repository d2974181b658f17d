// A note that is open in this browser. Of its tabs one has the line to the relay, by a lock; the others hear of it, and the next one takes
// it where that ends.
import { Trouble, hex } from "./bytes.js";
import { opened } from "./entry.js";
import { sha256 } from "./keys.js";
import { WHY, inMessages } from "./message.js";
import { Presence } from "./presence.js";
import { Away, Refused, RelayLine } from "./relay.js";

// How long nothing is sent after the relay said that it takes no more, or not so fast.
const [FULL_MS, RATE_MS] = [60_000, 5_000];
const AT_ONCE = 200;

/** How a note stands: whether the relay is reached, in words where not, how many entries it lacks, and how much of its log was read.
 * @typedef {{ isUp: boolean, words: string, unsent: number, read: number, of: number, bad: number }} Standing */

export class Followed {
  /** @type {Standing} */
  standing = { isUp: false, words: "", unsent: 0, read: 0, of: 0, bad: 0 };
  // Each tab is an editor of its own to others; what it says goes by the one that has the line.
  presence;
  // Under which number is typed in this tab.
  site = 0;
  #keys;
  #id;
  #url;
  #store;
  #changed;
  #read;
  #channel;
  #ends = new AbortController();
  #isClosed = false;
  /** @type {RelayLine | null} */
  #line = null;
  // What the relay tells of the note, until something comes of it.
  #told = "";
  #turn = Promise.resolve();
  /** @type {ReturnType<typeof setTimeout> | undefined} */
  #later;

  /** `changed` is called as entries came, or how it stands has changed; `read` in the tab that has the line, as all was read.
   * @param {import("./store.js").Store} store @param {import("./keys.js").NoteKeys} keys @param {string} url
   * @param {(hasEntries: boolean) => void} changed @param {() => void} read */
  constructor(store, keys, url, changed, read) {
    this.#store = store;
    this.#keys = keys;
    this.#id = hex(keys.identity);
    this.#url = url;
    this.#changed = changed;
    this.#read = read;
    this.#channel = new BroadcastChannel(`vialshoal ${this.#id}`);
    this.#channel.onmessage = ({ data }) => this.#heard(data);
    this.presence = new Presence(keys, (raw) => {
      this.#line?.say(raw);
      this.#tell({ said: raw });
    }, () => this.#changed(false));
    this.#tell("who");
    this.#next(() => this.#sayYou());
    const lock = { signal: this.#ends.signal };
    navigator.locks.request(`vialshoal ${this.#id}`, lock, () => this.#lead()).catch((why) => {
      if (!this.#ends.signal.aborted) this.#stands({ words: String(why?.message ?? why) });
    });
  }

  /** Whether more of the log is about to come. */
  get isReading() {
    const { isUp, words, read, of } = this.standing;
    return !isUp && !words && read < of;
  }

  /** Has what was kept be sent, by whichever tab has the line. */
  send() {
    if (this.#line) this.#next(() => this.#give());
    else this.#tell("send");
  }

  /** Has all tabs show what was kept by this one, and it be sent: so many entries, until they are counted.
   * @param {number} many */
  kept(many = 0) {
    this.standing = { ...this.standing, unsent: this.standing.unsent + many };
    this.#tell("kept");
    this.send();
  }

  /** Has all tabs show what else is kept of the note now. */
  changed() {
    this.#stands({});
  }

  /** Has others see by which name and colour this browser's user goes. */
  isCalled() {
    this.#tell("you");
    this.#next(() => this.#sayYou());
  }

  /** @param {Promise<void>} settled ends once all is kept that is to be, of which other tabs hear until then */
  close(settled = Promise.resolve()) {
    this.#ends.abort();
    clearTimeout(this.#later);
    const left = this.presence.leave().then(() => this.#line?.close());
    void Promise.all([left, settled]).then(() => {
      this.#isClosed = true;
      this.#channel.close();
    });
  }

  /** Says something to other tabs, as long as there is a way.
   * @param {unknown} what */
  #tell(what) {
    if (!this.#isClosed) this.#channel.postMessage(what);
  }

  /** @param {any} data what another tab of this browser says */
  #heard(data) {
    if (this.#ends.signal.aborted) return;
    if (data === "who" && this.#line) this.#tell({ standing: this.standing, hasEntries: false });
    else if (data === "send" && this.#line) this.#next(() => this.#give());
    else if (data === "kept") this.#changed(true);
    else if (data === "you") this.#next(() => this.#sayYou());
    else if (data?.said) this.#said(data.said);
    else if (data?.heard) this.presence.heard(data.heard);
    else if (data?.standing && !this.#line) this.#stood(data);
  }

  /** Another tab shows itself, for which this one may have the line.
   * @param {Uint8Array} raw */
  #said(raw) {
    this.presence.heard(raw, true);
    this.#line?.say(raw);
  }

  /** @param {{ standing: Standing, hasEntries: boolean }} told by the tab that has the line */
  #stood({ standing, hasEntries }) {
    this.standing = standing;
    if (standing.isUp) this.presence.up();
    else this.presence.down();
    this.#changed(hasEntries);
  }

  /** Has the line until this tab ends. */
  async #lead() {
    if (this.#ends.signal.aborted) return;
    this.#line = new RelayLine(this.#keys, this.#url, {
      up: () => {
        this.#told = "";
        this.presence.up();
        this.#next(() => this.#readOn());
      },
      down: (words) => {
        this.presence.down();
        this.#next(async () => this.#stands({ isUp: false, words, unsent: await this.#store.unsentCount(this.#id) }));
      },
      came: (page) => this.#next(() => this.#took(page)),
      said: (raw) => {
        this.presence.heard(raw);
        this.#tell({ heard: raw });
      },
      told: (_, words) => {
        this.#told = words;
        this.#stands({ words });
      },
    });
    await new Promise((done) => this.#ends.signal.addEventListener("abort", done));
  }

  /** One thing after the other; what went wrong is said.
   * @param {() => Promise<void>} work */
  #next(work) {
    this.#turn = this.#turn.then(work).catch((why) => {
      if (why instanceof Away || this.#ends.signal.aborted) return;
      // What comes after a fault is done all the same.
      if (!(why instanceof Trouble)) reportError(why);
      this.#stands({ words: why.message });
    });
  }

  /** @param {Partial<Standing>} what @param {boolean} hasEntries */
  #stands(what, hasEntries = false) {
    this.standing = { ...this.standing, ...what };
    if (this.#ends.signal.aborted) return;
    this.#tell({ standing: this.standing, hasEntries });
    this.#changed(hasEntries);
  }

  /** Reads to the end of the log, and gives it what it lacks. */
  async #readOn() {
    if (!this.#line) return;
    try {
      await this.#readFrom(this.#line);
    } catch (why) {
      if (!(why instanceof Refused) || why.why !== WHY.lost) throw why;
      // It is given what it has lost; where it loses more meanwhile that is told.
      await this.#store.lost(this.#id);
      await this.#readFrom(this.#line);
    }
    // The tab that had the line before may have kept entries, and have ended before it told of them.
    this.#stands({ isUp: true, words: this.#told }, true);
    await this.#give();
    this.#read();
  }

  /** @param {RelayLine} line */
  async #readFrom(line) {
    while (!await this.#take(await line.read((await this.#note()).place)));
  }

  /** What came unasked.
   * @param {import("./message.js").Page} page */
  async #took(page) {
    const { place, size } = await this.#note();
    // Where entries come there is room.
    this.#told = "";
    if (page.entries.length && page.atEnd && page.after === place && page.size === size + page.entries.length) {
      await this.#take(page);
      this.#stands({ words: "" });
    } else {
      await this.#readOn();
    }
  }

  /** Keeps what a page has; whether the log was read to its end by it.
   * @param {import("./message.js").Page} page */
  async #take({ after, atEnd, size, entries }) {
    const note = await this.#note();
    const count = note.size + entries.length;
    if (atEnd && size !== count) throw new Refused(WHY.lost, "The relay has lost entries.");
    if (!atEnd && !entries.length) throw new Trouble("What answers there is no relay.");
    const right = await this.#rightOnes(entries);
    const bad = note.bad + entries.length - right.length;
    const place = entries.length ? entries[entries.length - 1].place : after;
    const many = await this.#store.keep(this.#id, right, { place, size: count, bad });
    this.#stands({ read: count, of: Math.max(size, count), bad, unsent: await this.#store.unsentCount(this.#id) }, many > 0);
    return atEnd;
  }

  /** Those that are entries of the note.
   * @param {import("./message.js").InLog[]} entries */
  async #rightOnes(entries) {
    /** @type {import("./store.js").Kept[]} */
    const found = [];
    for (let begin = 0; begin < entries.length; begin += AT_ONCE) {
      const some = await Promise.all(entries.slice(begin, begin + AT_ONCE).map(({ raw }) => this.#rightOne(raw)));
      found.push(...some.flatMap((one) => (one ? [one] : [])));
    }
    return found;
  }

  /** @param {Uint8Array | null} raw */
  async #rightOne(raw) {
    try {
      if (!raw) return null;
      await opened(this.#keys, raw);
      return { hash: hex(await sha256(raw)), raw, isSent: true };
    } catch (why) {
      if (why instanceof Trouble) return null;
      throw why;
    }
  }

  /** Gives the log what it lacks. What it has is shown as sent once it says so. */
  async #give() {
    clearTimeout(this.#later);
    for (let some = await this.#store.unsent(this.#id); some.length && this.#line; some = await this.#store.unsent(this.#id)) {
      this.#stands({ unsent: await this.#store.unsentCount(this.#id) });
      try {
        for (const part of inMessages(some.map(({ raw }) => raw))) await this.#line.append(part);
      } catch (why) {
        if (why instanceof Refused && why.why !== WHY.wrong) {
          this.#later = setTimeout(() => this.send(), why.why === WHY.rate ? RATE_MS : FULL_MS);
        }
        throw why;
      }
      await this.#store.keep(this.#id, some.map((one) => ({ ...one, isSent: true })));
    }
    this.#stands({ unsent: await this.#store.unsentCount(this.#id), words: this.#told });
  }

  async #sayYou() {
    const { name, colour } = await this.#store.you();
    this.presence.isCalled({ name, colour, site: this.site || ((await this.#note()).author?.site ?? 0) });
  }

  async #note() {
    const note = await this.#store.note(this.#id);
    if (!note) throw new Trouble("This browser has forgotten the note. Its link opens it again.");
    return note;
  }
}
