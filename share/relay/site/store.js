// What this browser keeps of notes: their keys, and each entry, which is on the disk before anything is shown as sent.
import { Trouble } from "./bytes.js";
import { forgetUnkept } from "./unkept.js";

const [NAME, VERSION] = ["vialshoal", 1];
const NO_ROOM = "This browser has no room left for its notes. Free some, or save the log as a file; nothing more is kept until then.";
const NEWER = "The notes in this browser were made by a later version of vialshoal. Reload the page.";
const GONE = "What this browser kept was removed while the page was open. Notes come back by their links; reload the page.";
const WORDS = { QuotaExceededError: NO_ROOM, VersionError: NEWER, InvalidStateError: GONE, NotFoundError: GONE };

/** A note as it is kept: by its identity, in hexadecimal digits. `place` is how far its relay's log was read, after `size` entries;
 * `author` the secret and the number of who founded it here, `spare` those of a number that was searched for, and the counter of its claim;
 * `numbers` those that were taken so, of which each tab writes under one; `people` what those with some numbers are called; `looked` when its user looked at it last.
 * @typedef {{ id: string, key: Uint8Array, url: string, name: string, place: string, size: number, heard: number, bad: number,
 *   author: { secret: Uint8Array, site: number, isLeft?: boolean } | null, spare?: Searched | null, numbers?: Searched[],
 *   people?: Record<number, string>, looked?: Look }} Note */
/** Its time in seconds, and how many messages of each site counted then.
 * @typedef {{ time: number, fronts: [number, number][] }} Look */
/** A number that was searched for, and whose claim may be in the log; under one that was left nothing more is written.
 * @typedef {{ secret: Uint8Array, site: number, counter: bigint, isClaimed?: boolean, isLeft?: boolean }} Searched */
/** An entry, named by its hash. The relay may lack what isn't sent.
 * @typedef {{ hash: string, raw: Uint8Array, isSent: boolean }} Kept */
/** @typedef {{ name: string, colour: string }} You */

/** @template T @param {IDBRequest<T>} request @returns {Promise<T>} */
const asked = (request) => new Promise((done, failed) => {
  request.onsuccess = () => done(request.result);
  request.onerror = () => failed(request.error);
});

/** A fault of the browser's as a user is told it.
 * @param {any} why */
const inWords = (why) => (why instanceof Trouble ? why : new Trouble(WORDS[why?.name] ?? `This browser can't keep notes (${why?.message ?? why}).`));

/** Takes back what a transaction has done, unless it has ended by itself.
 * @param {IDBTransaction} transaction */
function undo(transaction) {
  try {
    transaction.abort();
  } catch {
    // It was taken back already.
  }
}

export class Store {
  #db;
  #why = "";

  /** @param {IDBDatabase} db @param {(words: string) => void} tells what ends it */
  constructor(db, tells) {
    this.#db = db;
    /** @param {string} why */
    const ends = (why) => {
      this.#why = why;
      tells(why);
    };
    db.onclose = () => ends(GONE);
    db.onversionchange = () => {
      db.close();
      ends(NEWER);
    };
  }

  /** @param {(words: string) => void} tells */
  static async open(tells) {
    try {
      const request = indexedDB.open(NAME, VERSION);
      request.onupgradeneeded = () => {
        request.result.createObjectStore("notes", { keyPath: "id" });
        request.result.createObjectStore("you");
        const entries = request.result.createObjectStore("entries", { autoIncrement: true });
        entries.createIndex("of", "note");
        entries.createIndex("named", ["note", "hash"], { unique: true });
        entries.createIndex("unsent", ["note", "unsent"]);
      };
      return new Store(await asked(request), tells);
    } catch (why) {
      throw inWords(why);
    }
  }

  /** All that `work` does is done, and on the disk, or nothing of it.
   * @template T @param {IDBTransactionMode} mode @param {(store: (name: string) => IDBObjectStore) => Promise<T>} work @returns {Promise<T>} */
  async #do(mode, work) {
    try {
      const transaction = this.#db.transaction(["notes", "entries", "you"], mode, /** @type {any} */ ({ durability: "strict" }));
      const ended = new Promise((done, failed) => {
        transaction.oncomplete = done;
        transaction.onabort = () => failed(transaction.error ?? new DOMException("", "InvalidStateError"));
      });
      ended.catch(() => {});
      const found = await work((name) => transaction.objectStore(name)).catch((why) => {
        undo(transaction);
        throw why;
      });
      await ended;
      return found;
    } catch (why) {
      throw this.#why ? new Trouble(this.#why) : inWords(why);
    }
  }

  /** @returns {Promise<You>} */
  you() {
    return this.#do("readonly", async (store) => await asked(store("you").get("you")) ?? { name: "", colour: "" });
  }

  /** @param {You} you */
  async setYou(you) {
    await this.#do("readwrite", (store) => asked(store("you").put(you, "you")));
  }

  /** @returns {Promise<Note[]>} */
  notes() {
    return this.#do("readonly", (store) => asked(store("notes").getAll()));
  }

  /** @param {string} id @returns {Promise<Note | undefined>} */
  note(id) {
    return this.#do("readonly", (store) => asked(store("notes").get(id)));
  }

  /** Takes a new note with its first entries; of one that is here nothing changes.
   * @param {Note} note @param {Kept[]} entries */
  add(note, entries = []) {
    return this.#do("readwrite", async (store) => {
      if (await asked(store("notes").get(note.id))) return;
      await asked(store("notes").put(note));
      await keepAll(store("entries"), note.id, entries);
    });
  }

  /** Keeps entries, and what else changes of a note with them; how many are new.
   * @param {string} id @param {Kept[]} entries @param {Partial<Note> | ((note: Note) => Partial<Note>)} changes */
  keep(id, entries, changes = {}) {
    return this.#do("readwrite", async (store) => {
      const note = await asked(store("notes").get(id));
      if (!note) throw new DOMException("", "NotFoundError");
      const many = await keepAll(store("entries"), id, entries);
      await asked(store("notes").put({ ...note, ...(typeof changes === "function" ? changes(note) : changes), ...(many ? { heard: Date.now() } : {}) }));
      return many;
    });
  }

  /** Takes over that the relay may lack all that is here, and has to be read again.
   * @param {string} id */
  lost(id) {
    return this.#do("readwrite", async (store) => {
      const note = await asked(store("notes").get(id));
      if (note) await asked(store("notes").put({ ...note, place: "", size: 0, bad: 0 }));
      const walk = store("entries").index("of").openCursor(id);
      for (let cursor = await asked(walk); cursor; cursor = await asked(walk)) {
        cursor.update({ ...cursor.value, unsent: 1 });
        cursor.continue();
      }
    });
  }

  /** What the relay may lack, the first ones.
   * @param {string} id @param {number} most @returns {Promise<Kept[]>} */
  unsent(id, most = 1_000) {
    return this.#do("readonly", async (store) => (await asked(store("entries").index("unsent").getAll([id, 1], most))).map(kept));
  }

  /** @param {string} id @returns {Promise<number>} */
  unsentCount(id) {
    return this.#do("readonly", (store) => asked(store("entries").index("unsent").count([id, 1])));
  }

  /** All entries of a note, in the order in which they came, and the number of the last one.
   * @param {string} id @returns {Promise<{ entries: Kept[], last: number }>} */
  entries(id) {
    return this.#do("readonly", async (store) => {
      const of = store("entries").index("of");
      const [values, keys] = await Promise.all([asked(of.getAll(id)), asked(of.getAllKeys(id))]);
      return { entries: values.map(kept), last: Number(keys[keys.length - 1] ?? 0) };
    });
  }

  /** Those that came after the one that has a number.
   * @param {string} id @param {number} after @returns {Promise<{ entries: Kept[], last: number }>} */
  entriesAfter(id, after) {
    if (!after) return this.entries(id);
    return this.#do("readonly", async (store) => {
      /** @type {{ entries: Kept[], last: number }} */
      const found = { entries: [], last: after };
      const walk = store("entries").index("of").openCursor(id);
      for (let cursor = await asked(walk); cursor; cursor = await asked(walk)) {
        if (Number(cursor.primaryKey) <= after) {
          cursor.continuePrimaryKey(id, after + 1);
        } else {
          found.entries.push(kept(cursor.value));
          found.last = Number(cursor.primaryKey);
          cursor.continue();
        }
      }
      return found;
    });
  }

  /** Forgets a note, with its key and all that is here of it.
   * @param {string} id */
  remove(id) {
    forgetUnkept(id);
    return this.#do("readwrite", async (store) => {
      await asked(store("notes").delete(id));
      const walk = store("entries").index("of").openCursor(id);
      for (let cursor = await asked(walk); cursor; cursor = await asked(walk)) {
        cursor.delete();
        cursor.continue();
      }
    });
  }
}

/** @param {any} one @returns {Kept} */
const kept = ({ hash, raw, unsent }) => ({ hash, raw, isSent: !unsent });

/** Keeps entries, or that they are sent; how many are new. None waits for the answer about another: that is most of the time.
 * @param {IDBObjectStore} store @param {string} note @param {Kept[]} entries */
async function keepAll(store, note, entries) {
  /** @type {Map<string, Kept>} */
  const some = new Map();
  for (const one of entries) if (one.isSent || !some.has(one.hash)) some.set(one.hash, one);
  const named = store.index("named");
  const keys = await Promise.all(Array.from(some.keys(), (hash) => asked(named.getKey([note, hash]))));
  await Promise.all(Array.from(some.values(), ({ hash, raw, isSent }, at) => {
    const value = { note, hash, raw, ...(isSent ? {} : { unsent: 1 }) };
    if (keys[at] === undefined) return asked(store.add(value));
    return isSent && asked(store.put(value, keys[at]));
  }));
  return keys.filter((key) => key === undefined).length;
}
