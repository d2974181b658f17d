// A note as the page shows it: its link, how it stands, and what is known without its text.
import { Trouble, equal, hex } from "./bytes.js";
import { ask, byId, element, tell } from "./elements.js";
import { opened } from "./entry.js";
import { Facts } from "./facts.js";
import { Followed } from "./followed.js";
import { NoteKeys, authorOf, sha256 } from "./keys.js";
import { addressOf, linkOf, readLink } from "./link.js";
import { fileOf, savedIn } from "./log.js";
import { Spare } from "./spare.js";

// Names of notes on a disk, which verbs of the command can be.
const [NO_NAME, LONGEST_NAME] = [/[^a-z0-9._-]+/g, 64];

/** What a note of this name can be called on a disk.
 * @param {string} name */
function nameOnDisk(name) {
  const plain = name.toLowerCase().normalize("NFD").replace(/\p{M}/gu, "").replace(NO_NAME, "-").replace(/^[^a-z0-9]+|-+$/g, "");
  return plain.slice(0, LONGEST_NAME) || "note";
}

/** @param {number} many */
const counted = (many) => `${many.toLocaleString("en")} ${many === 1 ? "entry" : "entries"}`;

export class Shown {
  id;
  #store;
  #keys;
  #followed;
  #facts;
  #spare;
  // Up to which of the store's entries they are taken over.
  #counted = 0;
  #own = "";
  #turn = Promise.resolve();
  #hasEnded = false;

  /** @param {import("./store.js").Store} store @param {import("./store.js").Note} note @param {NoteKeys} keys */
  constructor(store, note, keys) {
    this.id = note.id;
    this.#store = store;
    this.#keys = keys;
    this.#facts = new Facts(keys);
    this.#spare = new Spare(store, keys, note.id, () => this.#taken());
    this.#followed = new Followed(store, keys, note.url, (hasEntries) => this.#changed(hasEntries), () => this.#keepSpare());
  }

  /** @param {import("./store.js").Store} store @param {import("./store.js").Note} note */
  static async of(store, note) {
    const one = new Shown(store, note, await NoteKeys.of(note.key));
    if (note.author) one.#own = hex((await authorOf(note.author.secret)).name);
    byId("address").value = await addressOf(note.key, note.url, location.origin);
    byId("copied").textContent = "";
    byId("note").hidden = false;
    one.#changed(true);
    return one;
  }

  close() {
    this.#hasEnded = true;
    this.#spare.close();
    this.#followed.close();
    byId("note").hidden = true;
  }

  /** Takes over that this browser's user goes by another name or colour. */
  isCalled() {
    this.#followed.isCalled();
  }

  /** Saves the note as a file. */
  async save() {
    const note = await this.#store.note(this.id);
    if (!note) return;
    const raws = (await this.#store.entries(this.id)).entries.map(({ raw }) => raw);
    const address = URL.createObjectURL(fileOf(await linkOf(note.key, note.url), raws));
    const link = /** @type {HTMLAnchorElement} */ (element("a"));
    link.href = address;
    link.download = `${nameOnDisk(note.name)}.vialshoal-note`;
    link.click();
    setTimeout(() => URL.revokeObjectURL(address), 60_000);
  }

  /** Takes in the entries of a saved file; the relay gets what it lacks of them.
   * @param {File} file */
  async read(file) {
    const { link, raws, isWhole } = savedIn(new Uint8Array(await file.arrayBuffer()));
    if (link && !equal((await readLink(link, location.origin)).key, this.#keys.key)) throw new Trouble(`${file.name} is of another note.`);
    /** @type {import("./store.js").Kept[]} */
    const found = [];
    for (const raw of raws) {
      try {
        await opened(this.#keys, raw);
        found.push({ hash: hex(await sha256(raw)), raw, isSent: false });
      } catch (why) {
        if (!(why instanceof Trouble)) throw why;
      }
    }
    const many = await this.#store.keep(this.id, found);
    const bad = raws.length - found.length;
    tell(`${counted(many)} of ${file.name} weren't here.${bad ? ` ${counted(bad)} left out, which aren't the note's.` : ""}`
      + `${isWhole ? "" : " The file was cut short."}`);
    this.#changed(true);
    this.#followed.send();
  }

  /** Which numbers somebody has, as far as all was read here. */
  async #taken() {
    await this.#turn;
    return this.#facts.taken();
  }

  #keepSpare() {
    this.#spare.keep().catch((why) => {
      if (!(why instanceof Trouble)) reportError(why);
      tell(why.message);
    }).finally(() => this.#followed.changed());
    this.#followed.changed();
  }

  /** @param {boolean} hasEntries */
  #changed(hasEntries) {
    this.#turn = this.#turn.then(() => this.#show(hasEntries)).catch((why) => {
      if (!(why instanceof Trouble)) reportError(why);
      tell(why.message);
    });
  }

  /** @param {boolean} hasEntries */
  async #show(hasEntries) {
    const note = await this.#store.note(this.id);
    if (!note || this.#hasEnded) return;
    byId("title").textContent = note.name;
    byId("command").textContent = `bin/note open ${nameOnDisk(note.name)}`;
    const { standing } = this.#followed;
    const isFull = standing.isUp && standing.words;
    byId("standing").textContent = this.#words(standing);
    byId("standing").classList.toggle("trouble", Boolean(isFull));
    this.#showPeople(this.#followed.presence.people().filter(({ own }) => !own));
    if (hasEntries) await this.#count();
    if (!this.#hasEnded) this.#showFacts(note);
  }

  /** @param {import("./followed.js").Standing} standing */
  #words({ isUp, words, unsent, read, of }) {
    const kept = unsent ? `, ${counted(unsent)} kept here and not sent` : "";
    if (!isUp) return `offline${kept}${words ? ` (${words})` : ""}`;
    if (words) return `${words}${kept}`;
    if (read < of) return `reading: ${read.toLocaleString("en")} of ${of.toLocaleString("en")} entries`;
    return unsent ? `sending ${counted(unsent)}` : "all sent, and all read";
  }

  /** @param {import("./presence.js").Person[]} people */
  #showPeople(people) {
    byId("alone").hidden = people.length > 0;
    byId("people").replaceChildren(...people.map(({ name, colour }) => {
      const dot = element("span", "\u25cf ");
      dot.style.color = colour;
      dot.setAttribute("aria-hidden", "true");
      return element("li", dot, name || "somebody without a name");
    }));
  }

  /** Takes over the entries that came since. */
  async #count() {
    const { entries, last } = await this.#store.entriesAfter(this.id, this.#counted);
    for (const { raw } of entries) await this.#facts.add(raw);
    await this.#facts.base.look();
    this.#counted = last;
  }

  /** @param {import("./store.js").Note} note */
  #showFacts(note) {
    const { entries, bytes, founder, isCopy, renewedBy } = this.#facts;
    const numbers = this.#facts.numbers();
    const rows = [["Entries", `${entries.toLocaleString("en")} (${bytes.toLocaleString("en")} bytes)`],
      ["Founded by", founder ? `${this.#whose(founder.author)}${isCopy ? ", as a copy of another note" : ""}` : "not read yet"],
      ["Last entry came here", note.heard ? new Date(note.heard).toLocaleString() : "none came yet"],
      ["Your next number", this.#nextNumber(note)],
      ["Left out", note.bad ? `${note.bad.toLocaleString("en")}, which are no entries of this note` : "nothing"]];
    byId("facts").replaceChildren(...rows.flatMap(([what, words]) => [element("dt", what), element("dd", words)]));
    byId("renewed").hidden = !renewedBy.length;
    byId("renewed").textContent = `${renewedBy.join(", ")} renewed this note: it goes on under another link. Ask for that.`;
    const cells = numbers.map(({ site, author, messages }) => [String(site), this.#whose(author), messages.toLocaleString("en")]);
    byId("numbers").tBodies[0].replaceChildren(...cells.map((row) => element("tr", ...row.map((cell) => element("td", cell)))));
  }

  /** @param {import("./store.js").Note} note */
  #nextNumber({ spare }) {
    if (this.#spare.isSearching) return "is searched for, which takes this machine some seconds";
    return spare ? `${spare.site}, found and kept here` : "none yet";
  }

  /** @param {string} author */
  #whose(author) {
    if (author === this.#own) return "you, in this browser";
    return `key ${author.slice(0, 8)}${author === this.#facts.founder?.author ? ", the founder" : ""}`;
  }

  /** Asks for another name, which this browser alone has. */
  async rename() {
    const note = await this.#store.note(this.id);
    const name = (await ask("The note's name in this browser:", note?.name ?? ""))?.trim();
    if (name) await this.#store.keep(this.id, [], { name });
    this.#changed(false);
  }

  /** Forgets the note, after asking; whether it is forgotten. */
  async forget() {
    const unsent = await this.#store.unsentCount(this.id);
    const lost = unsent ? " What was never sent is lost then." : "";
    if (await ask(`Take the note from this browser, with its link and its keys?${lost}`) === null) return false;
    this.close();
    await this.#store.remove(this.id);
    return true;
  }
}
