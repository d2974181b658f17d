// Notes' values over the core, as a relay's page has them, in Node: two people edit at random, and what each says comes to the other in any
// order. node site_texts.mjs SITE CORE SEED STEPS prints what went wrong, or what was done.
import { readFileSync } from "node:fs";
import { pathToFileURL } from "node:url";

const [, , site, wasm, seed, steps] = process.argv;
const { Core } = await import(pathToFileURL(`${site}/core.js`).href);
const { Value } = await import(pathToFileURL(`${site}/value.js`).href);
const { SharedText, TEXT } = await import(pathToFileURL(`${site}/shared.js`).href);
const { History } = await import(pathToFileURL(`${site}/history.js`).href);
const { operationsOf } = await import(pathToFileURL(`${site}/chunk.js`).href);
const { changedSince, shownOf } = await import(pathToFileURL(`${site}/former.js`).href);
const { Undoing } = await import(pathToFileURL(`${site}/undoing.js`).href);

let state = Number(seed);
/** A number below this, by chance. */
function chance(below) {
  state = (Math.imul(state, 1664525) + 1013904223) >>> 0;
  return Math.floor((state / 2 ** 32) * below);
}

const SIGNS = ["a", "b ", "\n", "\r\n", "\u00e9", "\u6f22", "\u{1f44d}\u{1f3fd}", " words of several\nlines "];
const bytes = (value) => new Uint8Array(32).fill(value);
const core = new Core(new WebAssembly.Module(readFileSync(wasm)));

class Person {
  constructor(site) {
    this.author = bytes(site);
    this.value = new Value(core, bytes(9), { founder: bytes(1), number: 1, baseKey: bytes(0), root: bytes(0), base: new Uint8Array(0) }, site);
    this.value.claim(bytes(2), 2, bytes(7));
    this.value.update();
    this.text = new SharedText(this.value);
    this.undoing = new Undoing(() => 0);
    // What an editor shows that is told of others' changes; what comes later; and all that came, in its order.
    this.shown = "";
    this.comes = [];
    this.came = [];
  }

  /** A place that isn't inside a character. */
  place() {
    const at = chance(this.shown.length + 1);
    return /[\udc00-\udfff]/.test(this.shown[at] ?? "") ? at - 1 : at;
  }

  types() {
    const [begin, end] = [this.place(), this.place()].sort((one, other) => one - other);
    const change = [begin, chance(2) ? begin : Math.min(end, begin + chance(12)), chance(4) ? SIGNS[chance(SIGNS.length)] : ""];
    if (/[\udc00-\udfff]/.test(this.shown[change[1]] ?? "")) change[1] -= 1;
    const old = this.shown.slice(change[0], change[1]);
    this.undoing.made([change], old, this.text.edit(change), false);
    this.shown = this.shown.slice(0, change[0]) + change[2] + this.shown.slice(change[1]);
  }

  looks() {
    const [begin, end] = [this.place(), this.place()].sort((one, other) => one - other);
    this.undoing.add(this.text.look([[begin, end]], chance(2) ? { bold: chance(2) === 0 } : { colour: chance(9) }));
  }

  undoes(isRedo) {
    this.undoing.undo(isRedo, (step) => this.text.takeBack(step));
    this.sees();
  }

  /** What was typed becomes entries, and what came is shown. */
  meets(other) {
    const said = this.value.say([TEXT], this.author);
    this.came.push(...said);
    other.comes.push(...said);
    while (this.comes.length && chance(4)) this.takes(chance(this.comes.length));
    this.value.update();
    this.sees();
  }

  takes(at) {
    const [one] = this.comes.splice(at, 1);
    this.value.add(one);
    this.came.push(one);
  }

  /** How the text came to be, of which each place leads to the text as it is now by what has changed since. */
  remembers() {
    const history = new History(new Map(this.text.fronts()));
    for (const { body } of this.came) history.add(operationsOf(body.subarray(2 + 34 * (body[0] * 256 + body[1]))));
    for (let left = 20; left > 0; left -= 1) this.leads(history.frontsAt(chance(history.length + 1)));
    if (shownOf(this.text.past(history.frontsAt(history.length))).text !== this.shown) throw new Error("the history ends elsewhere");
    const ends = [0, ...history.steps.map(({ end }) => end)];
    if (history.steps.some(({ begin }, at) => begin !== ends[at]) || ends.at(-1) !== history.length) throw new Error("steps are missing");
    return history;
  }

  leads(fronts) {
    const then = this.text.past(fronts);
    const { came, went } = changedSince(then, this.text);
    let [text, at] = ["", 0];
    const goesOn = (end) => {
      for (const { begin, end: until } of came) {
        if (begin < at || begin >= end) continue;
        text += this.shown.slice(at, begin);
        at = Math.max(at, until);
      }
      text += this.shown.slice(at, Math.max(at, end));
      at = Math.max(at, end);
    };
    for (const one of went) {
      goesOn(one.at);
      text += one.text;
    }
    goesOn(this.shown.length);
    if (text !== shownOf(then).text) throw new Error(`was ${JSON.stringify(shownOf(then).text)}, not ${JSON.stringify(text)}`);
  }

  sees() {
    const changes = this.text.changed();
    // Undos go with a text that begins anew, as it does where something that counted doesn't any more. Nothing is so here.
    if (!changes) throw new Error("the text began anew");
    for (const [begin, end, put] of changes) this.shown = this.shown.slice(0, begin) + put + this.shown.slice(end);
    if (this.shown !== this.text.slice()) throw new Error(`shown: ${JSON.stringify(this.shown)}, has: ${JSON.stringify(this.text.slice())}`);
  }
}

// What is said is handed out where memory is refused as it is to be shown, before it counts or after.
for (const isDone of [false, true]) {
  const [one, other] = [new Person(1), new Person(2)];
  one.text.edit([0, 0, "Oberon"]);
  core.call = (name, ...given) => {
    const isRefused = name === "note_update", answer = isRefused && !isDone ? 7 : Core.prototype.call.call(core, name, ...given);
    return isRefused ? 7 : answer;
  };
  other.comes.push(...one.value.say([TEXT], one.author));
  delete core.call;
  one.value.update();
  while (other.comes.length) other.meets(one);
  if (other.shown !== "Oberon" || one.text.slice() !== "Oberon") throw new Error(`${one.text.slice()} became ${other.shown}`);
}

/** Counts calls of a method of the core's, those that begin so. */
function counting(method, ...words) {
  const [called, found] = [core[method], { many: 0, ends: () => { core[method] = called; } }];
  core[method] = function (...given) {
    found.many += Number(words.every((word, at) => word === given[at]));
    return called.apply(this, given);
  };
  return found;
}

/** Who writes, or reads, a plain text asks for no looks; a long text that is shown first is read as a whole. */
function takesLittle() {
  const [ann, bob] = [new Person(1), new Person(2)];
  const asked = counting("call", "note_looks");
  const hears = () => {
    for (const one of ann.value.say([TEXT], ann.author)) bob.value.add(one);
    bob.value.update();
  };
  for (let at = 0; at < 3_000; at += 1) ann.text.edit([0, 0, `${at} `]);
  hears();
  const read = counting("wide");
  bob.text = new SharedText(bob.value);
  if (read.many > 20) throw new Error(`${read.many} numbers were read of a text that is shown first`);
  read.ends();
  if (!bob.text.length || bob.text.slice() !== ann.text.slice()) throw new Error("the text isn't all there");
  for (const { text } of [ann, bob]) if (text.dressed(9).length) throw new Error("a plain text has looks");
  if (asked.many) throw new Error("looks were asked for of a plain text");
  asked.ends();
  ann.text.look([[1, 2]], { bold: true });
  hears();
  for (const { text } of [ann, bob]) if (text.dressed(9).length !== 1) throw new Error("looks aren't told");
}

takesLittle();
const people = [new Person(1), new Person(2)];
// The second one has text of the other's before an own one, as who joins has.
while (!people[0].shown) people[0].types();
people[0].meets(people[1]);
while (people[1].comes.length) people[1].meets(people[0]);
for (let step = 0; step < Number(steps); step += 1) {
  const [one, other] = chance(2) ? people : [people[1], people[0]];
  const what = chance(10);
  if (what < 6) one.types();
  else if (what < 7) one.looks();
  else if (what < 9) one.undoes(what === 8);
  else one.meets(other);
}
for (let round = 0; round < 60; round += 1) for (const [one, other] of [people, [people[1], people[0]]]) one.meets(other);
const [ann, bob] = people.map((one) => ({ text: one.text.slice(), dressed: one.text.dressed(1e6), wrote: one.text.wrote(0, one.text.length) }));
if (JSON.stringify(ann) !== JSON.stringify(bob)) throw new Error(`${JSON.stringify(ann)} and ${JSON.stringify(bob)}`);
const [history] = people.map((one) => one.remembers());
console.log(JSON.stringify({ steps: history.steps.length, characters: ann.text.length, dressed: ann.dressed.length, writers: new Set(ann.wrote.map((one) => one.site)).size }));
