// A list of the user's notes, in which names and texts are searched.

/** @type {(id: string) => any} */
const element = (id) => document.getElementById(id);

export class Notes {
  #ask;
  #all = [];

  /** `ask` asks the page's server for notes. */
  constructor(ask) {
    this.#ask = ask;
    element("search").addEventListener("submit", (event) => {
      event.preventDefault();
      this.#seek(element("wanted").value);
    });
    element("wanted").addEventListener("input", () => this.#named());
    element("unlisted").addEventListener("click", () => element("listed").close());
  }

  /** Shows all notes. */
  show() {
    element("wanted").value = "";
    element("list").replaceChildren();
    element("listed").showModal();
    element("wanted").focus();
    this.#seek("");
  }

  async #seek(words) {
    element("listing").textContent = words ? "Searching ..." : "";
    const { error, notes = [] } = await this.#ask(words);
    if (error) {
      element("listing").textContent = "The notes can't be listed now.";
    } else if (words) {
      this.#list(notes, "found");
    } else {
      this.#all = notes;
      this.#named();
    }
  }

  /** Shows those whose name has what is typed. */
  #named() {
    const wanted = element("wanted").value.trim().toLowerCase();
    this.#list(this.#all.filter(({ name }) => name.toLowerCase().includes(wanted)), wanted ? `of ${this.#all.length} by name` : "here");
  }

  #list(notes, how) {
    element("listing").textContent = `${notes.length} ${how}`;
    element("list").replaceChildren(...notes.map((one) => {
      const [item, button, words] = ["li", "button", "small"].map((name) => document.createElement(name));
      button.textContent = one.name;
      words.textContent = one.line ?? new Date(1000 * one.changed).toLocaleString();
      if (one.name === element("note").textContent) button.ariaCurrent = "true";
      button.addEventListener("click", () => location.assign(`/?note=${encodeURIComponent(one.name)}`));
      button.append(words);
      item.append(button);
      return item;
    }));
  }
}
