// The note's history: its text as it was, with colours of who wrote what.
import { colourAt, nameOf, pale } from "./people.js";
import { OPTIONS } from "./editor.js";

/* global CodeMirror */

const DID = { typed: "typed", deleted: "deleted", restored: "restored", looked: "in other looks" };
/** @type {(id: string) => any} */
const element = (id) => document.getElementById(id);

/** How much was left out and whose it is, in words. */
function wordsOfLeftOut(leftOut) {
  const whose = leftOut.map((one) => `${one.characters} characters of ${nameOf(one)}`);
  return `left out, since others hold its place: ${whose.join(", ")}`;
}

/** What was left out, each stretch in lines of its own, as the past is answered. */
function asPast(leftOut) {
  const stretches = [];
  let text = "";
  for (const { text: lost, ...one } of leftOut) {
    stretches.push({ ...one, begin: text.length, end: text.length + lost.length });
    text += lost.endsWith("\n") ? lost : `${lost}\n`;
  }
  return { text, stretches };
}

/** What a step did, in words. */
function wordsOf(step, at, of) {
  if (!step) return `at the beginning, of ${of} steps`;
  const did = Object.keys(DID).filter((one) => step[one]).map((one) => `${step[one]} ${DID[one]}`);
  return `step ${at} of ${of}: ${nameOf(step)}, ${did.join(" and ") || "nothing new"}`;
}

export class Past {
  #ask;
  cm;
  #steps = [];
  // What doesn't count, behind the last step.
  #leftOut = [];
  #recovers = false;
  #stretches = [];
  #marks = [];
  // The sites' numbers, by when they came.
  #sites = new Map();
  #colourOf;
  #isAsking = false;

  /**
   * `ask` sends a request and gives its answer, `colourOf` has the colour of a site that is on; `left` is called as the user goes back to
   * the note, and `since` as he does to see what has changed there since a place of the history.
   */
  constructor(ask, colourOf, { left, since }) {
    this.#ask = ask;
    this.#colourOf = colourOf;
    this.cm = CodeMirror(element("past-text"), { ...OPTIONS, readOnly: true });
    this.cm.on("viewportChange", () => this.#colour());
    element("at").addEventListener("input", () => this.#look());
    element("earlier").addEventListener("click", () => this.#go(-1));
    element("later").addEventListener("click", () => this.#go(1));
    element("slide").addEventListener("submit", (event) => event.preventDefault());
    const goesBack = () => {
      element("past").hidden = true;
      element("sheets").hidden = false;
      left();
    };
    element("back").addEventListener("click", goesBack);
    element("since-here").addEventListener("click", () => {
      goesBack();
      since(this.#steps[Number(element("at").value) - 1]?.end ?? 0);
    });
    element("recover").addEventListener("click", async () => {
      element("recover").hidden = true;
      if (!(await ask({ do: "recover" })).error) goesBack();
    });
  }

  /** Shows the history, from today on. */
  async show() {
    const steps = [];
    let all;
    do {
      all = await this.#ask({ do: "history", from: steps.at(-1)?.end ?? 0 });
      if (all.error) return;
      steps.push(...all.steps);
    } while (all.steps.length && steps.at(-1).end < all.length);
    this.#steps = steps;
    [this.#leftOut, this.#recovers] = [all.left_out ?? [], all.recovers === true];
    for (const { site } of [...steps, ...this.#leftOut]) {
      if (!this.#sites.has(site)) this.#sites.set(site, this.#sites.size);
    }
    this.#open();
    element("at").max = String(steps.length + (this.#leftOut.length ? 1 : 0));
    element("at").value = String(steps.length);
    await this.#look();
  }

  #open() {
    element("past").hidden = false;
    element("sheets").hidden = true;
    element("recover").hidden = true;
  }

  #go(by) {
    element("at").value = String(Number(element("at").value) + by);
    this.#look();
  }

  /** Shows the text where the slider is; one is asked for at a time. */
  async #look() {
    const at = Number(element("at").value);
    element("since-here").disabled = at >= this.#steps.length;
    element("recover").hidden = !this.#recovers || at <= this.#steps.length;
    if (at > this.#steps.length) {
      element("step").textContent = wordsOfLeftOut(this.#leftOut);
      this.#shows(asPast(this.#leftOut));
      return;
    }
    element("step").textContent = wordsOf(this.#steps[at - 1], at, this.#steps.length);
    if (this.#isAsking) return;
    this.#isAsking = true;
    try {
      const past = await this.#ask({ do: "past", at: this.#steps[at - 1]?.end ?? 0 });
      if (!past.error) this.#shows(past);
    } finally {
      this.#isAsking = false;
    }
    if (Number(element("at").value) !== at) await this.#look();
  }

  #shows({ text, stretches }) {
    const authors = new Map(stretches.map((one) => [one.site, one]));
    element("authors").replaceChildren(...[...authors.values()].map((one) => {
      const item = document.createElement("li");
      item.textContent = nameOf(one);
      item.style.backgroundColor = this.#pale(one.site);
      return item;
    }));
    this.#set(text, stretches);
  }

  #pale(site) {
    return pale(this.#colourOf(site) ?? colourAt(this.#sites.get(site) ?? 0));
  }

  #set(text, stretches) {
    this.#stretches = stretches;
    this.#marks = [];
    this.cm.setValue(text);
    this.cm.refresh();
    this.#colour();
  }

  /** Colours what can be seen. */
  #colour() {
    const { from, to } = this.cm.getViewport();
    const [begin, end] = [from, to].map((line) => this.cm.indexFromPos({ line, ch: 0 }));
    this.cm.operation(() => {
      for (const mark of this.#marks) mark.clear();
      this.#marks = this.#seen(begin, end).map((one) => this.cm.markText(
        this.cm.posFromIndex(Math.max(one.begin, begin)), this.cm.posFromIndex(Math.min(one.end, end)),
        { className: `of-${this.#sites.get(one.site)}`, css: `background-color: ${this.#pale(one.site)}` },
      ));
    });
  }

  /** The stretches that have something of a part of the text. */
  #seen(begin, end) {
    let [low, high] = [0, this.#stretches.length];
    while (low < high) {
      const middle = (low + high) >> 1;
      if (this.#stretches[middle].end <= begin) low = middle + 1;
      else high = middle;
    }
    const found = [];
    while (low < this.#stretches.length && this.#stretches[low].begin < end) {
      found.push(this.#stretches[low]);
      low += 1;
    }
    return found;
  }
}
