// Who is on: their names and colours, and who came and left.
import { tell } from "./aloud.js";
import { paint, shownName } from "./people.js";

/** @type {(id: string) => any} */
const element = (id) => document.getElementById(id);

export class Present {
  #ask;
  // How many are on, and whose cursors are shown; and who they are.
  #known = {};
  #people = new Map();
  #colours = new Map();

  /** `ask` sends a request and gives its answer. */
  constructor(ask) {
    this.#ask = ask;
  }

  /** The colour of a site that is on. */
  colourOf(site) {
    return this.#colours.get(site);
  }

  /** The note is opened, or opened again. */
  begin() {
    this.#known = {};
  }

  /** Asks who is on, where what came says that they are others than before. */
  async heard(news) {
    const known = { ...this.#known, ...news };
    if (JSON.stringify(known) === JSON.stringify(this.#known)) return;
    const isFirst = !this.#known.on;
    this.#known = known;
    const { people } = await this.#ask({ do: "on" });
    if (people) this.#shows(people, isFirst);
  }

  #shows(people, isFirst) {
    this.#colours = new Map(people.map(({ site, colour }) => [site, colour]));
    element("people").replaceChildren(...people.map(({ name, colour }) => {
      const item = document.createElement("li");
      item.textContent = shownName(name);
      paint(item, colour);
      return item;
    }));
    this.#tellWhoCame(new Map(people.map(({ who, name }) => [who, shownName(name)])), isFirst);
  }

  #tellWhoCame(people, isFirst) {
    const names = (here, others) => [...here].filter(([who]) => !others.has(who)).map(([, name]) => name);
    const [came, left] = [names(people, this.#people), names(this.#people, people)];
    this.#people = people;
    const words = [came.length && `${came.join(", ")} came.`, left.length && `${left.join(", ")} left.`].filter(Boolean).join(" ");
    if (words && !isFirst) tell(words);
  }
}
