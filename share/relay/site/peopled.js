// Who is on at a note and who wrote what, by names.

/** @typedef {import("./shared.js").SharedText} SharedText */

export class People {
  /** @type {{ name: string, colour: string }} */
  you = { name: "", colour: "" };
  #presence;
  #store;
  #id;
  // What people are called, by their numbers, also those who aren't on any more.
  /** @type {Record<number, string>} */
  #names;
  // By whom each is known that came, and numbers that they are told apart by.
  /** @type {Map<string, number>} */
  #numbers = new Map();

  /** @param {import("./presence.js").Presence} presence @param {import("./store.js").Store} store @param {import("./store.js").Note} note */
  constructor(presence, store, note) {
    this.#presence = presence;
    this.#store = store;
    this.#id = note.id;
    this.#names = { ...note.people };
  }

  /** How many are on. */
  get many() {
    return 1 + this.#presence.people().length;
  }

  /** Who is on.
   * @param {number} site this tab's */
  on(site) {
    const you = { who: 1, ...this.you, site, own: true };
    return [you, ...this.#presence.people().map(({ who, name, colour, site: number, own }) => (
      { who: this.#numberOf(who), name, colour, site: number, own }))];
  }

  /** Where others' cursors are.
   * @param {SharedText} text */
  cursors(text) {
    this.#remember();
    return this.#presence.people().flatMap(({ who, name, colour, cursor, anchor }) => {
      const at = cursor && text.placeOf(cursor);
      if (at === null) return [];
      const end = anchor && text.placeOf(anchor);
      return [{ who: this.#numberOf(who), name, colour, at, ...(end === null || end === at ? {} : { anchor: end }) }];
    });
  }

  /** What sites wrote, with what their people are called.
   * @template {{ site: number }} Of @param {Of[]} found @param {import("./whole.js").Whole} whole */
  named(found, { own }) {
    return found.map((one) => {
      const isOwn = own.isOwn(one.site);
      const name = isOwn ? this.you.name : this.#names[one.site];
      return { ...one, own: isOwn, ...(name ? { name } : {}) };
    });
  }

  /** @param {string} who */
  #numberOf(who) {
    const number = this.#numbers.get(who) ?? this.#numbers.size + 2;
    this.#numbers.set(who, number);
    return number;
  }

  /** Keeps what people are called. */
  #remember() {
    const news = this.#presence.people().filter(({ site, name }) => site && name && this.#names[site] !== name);
    if (!news.length) return;
    for (const { site, name } of news) this.#names[site] = name;
    this.#store.keep(this.#id, [], ({ people }) => ({ people: { ...people, ...this.#names } })).catch(() => {});
  }
}
