// What has changed since the user looked, or since a place of the history. The engine compares once; then places move with the text, and
// what is in sight is marked.
import { tell } from "./aloud.js";
import { colourAt, nameOf, pale } from "./people.js";
import { made, plain, plainText, short, when } from "./shown.js";

/** @type {(id: string) => any} */
const element = (id) => document.getElementById(id);
// The most changes that are marked at once, and the most that is shown of what went.
const MOST_MARKED = 1000;
const MOST_WENT = 2000;
const MOST_SAID = 200;

/** Since when, in words. */
function sinceWords(since) {
  if (typeof since === "object") return "since that place of the history";
  return since ? `since you looked, ${when(since)}` : "since the note began";
}

/** Where a place goes as a change is made; at the change it stays before what comes in, or not. */
function moved(place, begin, end, length, stays) {
  if (place < begin || place === begin && stays) return place;
  return place >= end ? place + length - (end - begin) : begin;
}

export class Since {
  #editor;
  #askOf;
  #colourOf;
  #settle;
  // In their order: what came has an end, what went a text.
  #changes = [];
  #sites = new Map();
  #words = "";
  #at = -1;
  #marks = [];
  #now;
  // The lines whose changes are marked.
  #marked = [];
  #isDue = false;

  /** `askOf` asks about places of the text, `colourOf` has the colour of a site that is on, and `settle` does what waits. */
  constructor(editor, askOf, colourOf, settle) {
    [this.#editor, this.#askOf, this.#colourOf, this.#settle] = [editor, askOf, colourOf, settle];
    editor.cm.on("beforeChange", (_, change) => { if (!change.canceled) this.#moves(change); });
    for (const event of ["scroll", "update", "refresh"]) editor.cm.on(event, () => this.#soon());
    element("changed").addEventListener("click", () => (this.isShown ? this.close() : this.show("looked")));
    element("unchanged").addEventListener("click", () => this.close());
    element("change-before").addEventListener("click", () => this.#steps(false));
    element("change-after").addEventListener("click", () => this.#steps(true));
    document.addEventListener("keydown", (event) => this.#pressed(event), true);
  }

  get isShown() {
    return !element("since").hidden;
  }

  /** Shows what has changed since then. */
  async show(since) {
    const answer = await this.#askOf({ do: "changed", since });
    if (answer.error) return;
    if (answer.isOld()) {
      await this.show(since);
      return;
    }
    this.#changes = [...answer.came, ...answer.went.map((one) => ({ ...one, begin: one.at, end: one.at }))]
      .sort((one, other) => one.begin - other.begin || one.end - other.end);
    const many = this.#changes.length;
    this.#words = sinceWords(since === "looked" ? answer.since : since);
    [this.#at, this.#marked] = [-1, []];
    element("since").hidden = false;
    element("changed").ariaPressed = "true";
    for (const id of ["change-before", "change-after"]) element(id).disabled = !many;
    this.#says(many ? `${many === 1 ? "1 change" : `${many} changes`} ${this.#words}` : `Nothing has changed ${this.#words}`);
    this.#namesAuthors();
    this.#draw();
    this.#editor.cm.focus();
  }

  /** Shows no changes any more. */
  close() {
    element("since").hidden = true;
    element("changed").ariaPressed = "false";
    this.#changes = [];
    this.#now?.clear();
    this.#marks = this.#editor.marked(this.#marks, []);
    this.#editor.cm.focus();
  }

  #says(words) {
    element("since-words").textContent = words;
    tell(words);
  }

  #namesAuthors() {
    const authors = new Map(this.#changes.map((one) => [one.site, one]));
    for (const site of authors.keys()) if (!this.#sites.has(site)) this.#sites.set(site, this.#sites.size);
    element("changers").replaceChildren(...[...authors.values()].map((one) => {
      const item = made("li", plain(nameOf(one)));
      item.style.backgroundColor = this.#pale(one.site);
      return item;
    }));
  }

  #pale(site) {
    return pale(this.#colourOf(site) ?? colourAt(this.#sites.get(site) ?? 0));
  }

  #moves({ from, to, text }) {
    if (!this.#changes.length) return;
    const [begin, end, { length }] = [this.#editor.places.of(from), this.#editor.places.of(to), text.join("\n")];
    for (const one of this.#changes) {
      if (one.end < begin) continue;
      const isPlace = one.begin === one.end;
      one.begin = moved(one.begin, begin, end, length, isPlace);
      one.end = Math.max(one.begin, moved(one.end, begin, end, length, true));
    }
  }

  #soon() {
    if (this.#isDue || !this.#changes.length) return;
    this.#isDue = true;
    requestAnimationFrame(() => {
      this.#isDue = false;
      const { cm, composing } = this.#editor;
      const [from, to] = this.#marked.map((line) => cm.getLineNumber(line));
      const [first, last] = this.#editor.inSight(0);
      if (!composing.isOn && !(first.line >= (from ?? Infinity) && last.line <= (to ?? -1))) this.#draw();
    });
  }

  /** Marks the changes that are in sight, and some above and below. */
  #draw() {
    const { cm, places } = this.#editor;
    const ends = this.#editor.inSight(1);
    const [begin, end] = ends.map((place) => places.of(place));
    const seen = this.#changes.filter((one) => one.end >= begin && one.begin <= end).slice(0, MOST_MARKED);
    this.#marked = ends.map(({ line }) => cm.getLineHandle(line));
    cm.operation(() => {
      const came = seen.filter((one) => one.text === undefined && one.end > one.begin);
      this.#marks = this.#editor.marked(this.#marks, came.map((one) => ({
        begin: one.begin, end: one.end, className: "came", css: `background-color: ${this.#pale(one.site)}`,
      })));
      this.#marks.push(...seen.filter((one) => one.text !== undefined).map((one) => this.#went(one)));
    });
    this.#points();
  }

  /** A mark of what went, which is no part of the text. */
  #went(one) {
    const widget = made("span", "", "went");
    widget.dataset.went = short(plainText(one.text), MOST_WENT);
    widget.title = plain(nameOf(one));
    widget.style.backgroundColor = this.#pale(one.site);
    return this.#editor.cm.setBookmark(this.#editor.places.at(one.begin), { widget });
  }

  /** Marks the change that one has gone to. */
  #points() {
    const [{ cm, places }, one] = [this.#editor, this.#changes[this.#at]];
    this.#now?.clear();
    this.#now = one && one.end > one.begin ? cm.markText(places.at(one.begin), places.at(one.end), { className: "came now" }) : undefined;
  }

  /** Goes to the next change, or the one before; from an end of the text on at the other one. */
  #steps(forward) {
    const { cm, places } = this.#editor;
    const many = this.#changes.length;
    if (!many) return;
    // Keys that are kept are for where the cursor is still.
    this.#settle();
    const at = places.of(cm.getCursor("from"));
    const isThere = this.#changes[this.#at]?.begin === at;
    // How many are before the cursor.
    const before = this.#changes.filter((one) => one.begin < at).length;
    const further = isThere ? this.#at + (forward ? 1 : -1) : before - (forward ? 0 : 1);
    this.#at = (further + many) % many;
    const one = this.#changes[this.#at];
    cm.setCursor(places.at(one.begin), undefined, { scroll: false });
    cm.scrollIntoView(null, cm.getScrollInfo().clientHeight / 3);
    this.#points();
    element("since-words").textContent = `${this.#at + 1} of ${many} ${this.#words}`;
    const text = one.text ?? cm.getRange(places.at(one.begin), places.at(one.end));
    const name = plain(nameOf(one));
    tell(`${one.text === undefined ? `${name} typed` : `deleted, of ${name}`}: ${short(plainText(text), MOST_SAID)}`);
  }

  #pressed(event) {
    if (!this.isShown || event.isComposing || element("sheets").hidden) return;
    if (event.key === "F8") this.#steps(!event.shiftKey);
    else if (event.key === "Escape" && !event.target.closest(".card, #finding, dialog")) this.close();
    else return;
    event.preventDefault();
  }
}
