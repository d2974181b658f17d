// Colours of who wrote what, in the text that is seen.
import { colourAt, nameOf, pale } from "./people.js";

/** @type {(id: string) => any} */
const element = (id) => document.getElementById(id);
const REST_MS = 200;

export class Writers {
  #editor;
  #ask;
  #colourOf;
  #marks = [];
  // The sites' numbers, by when they were seen first.
  #sites = new Map();
  #timer;

  /** `ask` asks who wrote a stretch, and `colourOf` has the colour of a site that is on. */
  constructor(editor, ask, colourOf) {
    this.#editor = editor;
    this.#ask = ask;
    this.#colourOf = colourOf;
    for (const event of ["viewportChange", "changes"]) editor.cm.on(event, () => this.#soon());
  }

  get isShown() {
    return !element("legend").hidden;
  }

  /** Shows the colours, or not any more. */
  toggle() {
    element("legend").hidden = this.isShown;
    element("writers").ariaPressed = String(this.isShown);
    this.#show([]);
    if (this.isShown) this.#look();
  }

  #soon() {
    if (!this.isShown) return;
    clearTimeout(this.#timer);
    this.#timer = setTimeout(() => this.#look(), REST_MS);
  }

  async #look() {
    const answer = await this.#ask(...this.#editor.seen());
    if (!this.isShown || answer.error) return;
    if (answer.isOld()) this.#soon();
    else this.#show(answer.stretches);
  }

  #show(stretches) {
    const authors = new Map(stretches.map((one) => [one.site, one]));
    for (const site of authors.keys()) if (!this.#sites.has(site)) this.#sites.set(site, this.#sites.size);
    const colour = (site) => pale(this.#colourOf(site) ?? colourAt(this.#sites.get(site)));
    this.#marks = this.#editor.marked(this.#marks, stretches.map(({ begin, end, site }) => ({
      begin, end, className: `by-${this.#sites.get(site)}`, css: `background-color: ${colour(site)}`,
    })));
    element("legend").replaceChildren(...[...authors.values()].map((one) => {
      const item = document.createElement("li");
      item.textContent = nameOf(one);
      item.style.backgroundColor = colour(one.site);
      return item;
    }));
  }
}
