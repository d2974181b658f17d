// The note formatted, beside its text. It is made element by element, of those that are named here, with no address in them:
// a link is opened by the page, which asks before, and a picture is shown as its link. So it can load nothing and run nothing.
import { ask, target } from "./links.js";

/** @type {(id: string) => any} */
const element = (id) => document.getElementById(id);
const READER = new URL("./markdown.js", import.meta.url).href;
const PLAIN = new Set(["p", "h1", "h2", "h3", "h4", "h5", "h6", "blockquote", "ul", "li", "table", "thead", "tbody", "tr",
  "em", "strong", "s", "br", "hr"]);
const ALIGNED = new Set(["left", "right", "center"]);
// Deeper elements are put into those above them; and the most elements and texts that are shown.
const MOST_DEPTH = 100;
const MOST_NODES = 50_000;
const MOST_CHARACTERS = 1_000_000;
// How long nothing is typed before the text is formatted anew, and how long each part of that may take.
const REST_MS = 150;
const PATIENCE_MS = 4000;

const policy = /** @type {any} */ (globalThis).trustedTypes?.createPolicy("page", { createScriptURL: () => READER });

/** Words of the page itself, in the place of a text. */
function note(words) {
  const line = document.createElement("p");
  line.className = "note";
  line.textContent = words;
  return line;
}

class Builder {
  #root = document.createDocumentFragment();
  /** @type {ParentNode[]} */
  #open = [this.#root];
  #nodes = 0;
  #links;

  /** `links` gets where each link leads. */
  constructor(links) {
    this.#links = links;
  }

  /** The elements that steps of `markdown.js` say. */
  of(steps) {
    for (const step of steps) {
      this.#nodes += 1;
      if (this.#nodes > MOST_NODES) {
        this.#root.append(note("The rest of the text isn't shown here."));
        break;
      }
      this.#does(step);
    }
    return this.#root;
  }

  #does([words, name, attributes]) {
    const top = this.#open.at(-1) ?? this.#root;
    if (!name) top.append(words);
    else if (name === "picture") top.append(this.#linked(attributes.href, document.createElement("span"), words, "picture: "));
    else if (name === "code" || name === "pre") top.append(code(words, name));
    else if (attributes === null) this.#close();
    else if (attributes === undefined) top.append(this.#made(name, {}));
    else this.#begin(top, this.#made(name, attributes));
  }

  #begin(top, made) {
    const isDeep = this.#open.length >= MOST_DEPTH;
    if (!isDeep) top.append(made);
    this.#open.push(isDeep ? top : made);
  }

  #close() {
    if (this.#open.length > 1) this.#open.pop();
  }

  #made(name, attributes) {
    const { href, start, align } = attributes;
    if (name === "a") return this.#linked(href, document.createElement("span"));
    const made = document.createElement(PLAIN.has(name) || ["ol", "th", "td"].includes(name) ? name : "span");
    if (name === "ol" && start) made.start = Number(start);
    if (ALIGNED.has(align)) made.style.textAlign = align;
    if (made instanceof HTMLElement && !["em", "strong", "s", "br", "hr"].includes(name)) made.dir = "auto";
    return made;
  }

  /** A link, if its target is one that is opened; else its words, and the target as words. */
  #linked(href, made, words = "", kind = "") {
    const leads = target(href);
    made.append(...(kind || words ? [`${kind}${words || href}`] : []));
    if (leads) {
      Object.assign(made, { className: "link", tabIndex: 0, role: "link", title: leads });
      this.#links.set(made, leads);
    } else {
      made.title = `Not opened: ${String(href).slice(0, 200)}`;
    }
    return made;
  }
}

/** Code, in a line or in lines of its own. */
function code(words, name) {
  const made = document.createElement(name === "pre" ? "div" : "code");
  if (name === "pre") made.className = "code";
  made.textContent = words.replace(/\n$/, "");
  return made;
}

export class Formatted {
  #text;
  #missing = "";
  #reader;
  #isReady = false;
  #isBusy = false;
  #isDue = false;
  #timer;
  #patience;
  #links = new WeakMap();

  /** `text` gives the text of the moment. */
  constructor(text) {
    this.#text = text;
    element("formatted").classList.add("sheet");
    for (const kind of ["click", "keydown"]) {
      element("formatted").addEventListener(kind, (event) => {
        const href = this.#links.get(event.target.closest(".link"));
        if (href && (kind === "click" || event.key === "Enter")) {
          event.preventDefault();
          ask(href);
        }
      });
    }
  }

  /** Says which package of Debian's is missing for this view, if any is. */
  set missing(name) {
    this.#missing = name;
  }

  get isShown() {
    return !element("formatted").hidden;
  }

  /** Shows the formatted text, or not any more. */
  toggle() {
    element("formatted").hidden = this.isShown;
    element("format").ariaPressed = String(this.isShown);
    if (this.isShown) this.#begin();
    else this.#end();
  }

  /** Has the text be formatted anew, since it has changed. */
  changed() {
    if (!this.isShown) return;
    clearTimeout(this.#timer);
    this.#timer = setTimeout(() => this.#begin(), REST_MS);
  }

  #begin() {
    this.#isDue = true;
    if (this.#missing) {
      this.#says(`This view needs Debian's ${this.#missing}, which isn't installed. All else works without it.`);
      return;
    }
    this.#reader ??= this.#started();
    this.#go();
  }

  #started() {
    const reader = new Worker(policy?.createScriptURL(READER) ?? READER, { type: "module" });
    reader.onmessage = ({ data }) => this.#came(data);
    reader.onerror = () => this.#fails("The formatted view can't be made: its reader of Markdown doesn't begin.");
    return reader;
  }

  #go() {
    if (!this.#isReady || this.#isBusy || !this.#isDue) return;
    [this.#isDue, this.#isBusy] = [false, true];
    this.#wait();
    // One step more than are shown says that there is a rest.
    this.#reader.postMessage({ text: this.#text().slice(0, MOST_CHARACTERS), most: MOST_NODES + 1 });
  }

  /** Waits for what the reader does next, as long as that may take. */
  #wait() {
    clearTimeout(this.#patience);
    this.#patience = setTimeout(() => this.#fails("This text takes too long to be formatted."), PATIENCE_MS);
  }

  /** The reader is ready, has done a part of the work, or all of it. */
  #came(steps) {
    if (typeof steps === "number") {
      this.#wait();
      return;
    }
    clearTimeout(this.#patience);
    this.#isBusy = false;
    this.#isReady = true;
    if (steps && this.isShown) element("formatted").replaceChildren(new Builder(this.#links).of(steps));
    this.#go();
  }

  #fails(words) {
    this.#end();
    this.#says(words);
  }

  #end() {
    clearTimeout(this.#timer);
    clearTimeout(this.#patience);
    this.#reader?.terminate();
    this.#reader = undefined;
    [this.#isReady, this.#isBusy] = [false, false];
  }

  #says(words) {
    element("formatted").replaceChildren(note(words));
  }
}
