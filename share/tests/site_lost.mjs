// Texts of a relay's page as whole sites, in Node: another copy of a number of Ann's holds the place of what she typed, and so of what Bob
// typed after it. node site_lost.mjs SITE CORE prints what they show, what they are told and what is in the log, step by step.
import { readFileSync } from "node:fs";
import { pathToFileURL } from "node:url";

const [, , site, wasm] = process.argv;
const of = (name) => import(pathToFileURL(`${site}/${name}.js`).href);
const { hex, random } = await of("bytes");
const { Core } = await of("core");
const { KIND, sealed } = await of("entry");
const { Feed } = await of("feed");
const { founded, noteOf } = await of("founding");
const { NoteKeys, authorOf, sha256 } = await of("keys");
const { isBelow, numberOfRank, rankOf } = await of("rank");
const { TEXT } = await of("shared");
const { Whole } = await of("whole");

const core = new Core(new WebAssembly.Module(readFileSync(wasm)));
// Each tab of a browser has numbers of its own, and none of these has a line.
const held = new Set();
const request = (name, { ifAvailable }, work) => {
  const isFree = ifAvailable && !held.has(name);
  if (isFree) held.add(name);
  return ifAvailable ? Promise.resolve(work(isFree ? { name } : null)).then(() => isFree && held.delete(name)) : new Promise(() => {});
};
Object.defineProperty(globalThis, "navigator", { value: { locks: { request } }, configurable: true });
globalThis.reportError = (why) => { throw why; };

/** Waits until something is so. */
async function eventually(condition) {
  while (!await condition()) await new Promise((done) => { setTimeout(done, 5); });
}

/** What a browser keeps. */
class Kept {
  constructor(note, entries) {
    [this.kept, this.all] = [note, [...entries]];
  }

  async note() {
    return this.kept;
  }

  async you() {
    return { name: "", colour: "#000000" };
  }

  async keep(_, entries, changes = {}) {
    this.takes(entries);
    Object.assign(this.kept, typeof changes === "function" ? changes(this.kept) : changes);
  }

  takes(entries) {
    for (const one of entries) if (!this.all.some(({ hash }) => hash === one.hash)) this.all.push(one);
  }

  async entriesAfter(_, after) {
    return { entries: this.all.slice(after), last: this.all.length };
  }

  async unsentCount() {
    return 0;
  }
}

/** Somebody, and the page. */
class Person {
  constructor(keys, store) {
    [this.store, this.said, this.edits] = [store, [], 0];
    const nothing = () => {};
    this.whole = new Whole(core, store, keys, store.kept, { isBusy: () => false, changed: nothing, unkept: nothing, kept: nothing,
      reads: nothing, stands: nothing, says: (words) => this.said.push(words) });
  }

  get shows() {
    return this.whole.text?.slice() ?? "";
  }

  /** Types at a place, or at the end. */
  async types(text, at = this.shows.length) {
    this.does(() => this.whole.text.edit([at, at, text]));
    await this.whole.kept();
  }

  does(work) {
    work();
    this.whole.text.changed();
    this.edits += 1;
    this.whole.made(this.edits);
  }

  /** Types again what is left out. */
  async recovers() {
    await this.whole.recover((passages) => this.does(() => this.whole.text.put(passages)));
  }

  /** Others' entries come. */
  hears(entries) {
    this.store.takes(entries);
    channel.postMessage("kept");
  }

  told() {
    const leftOut = this.whole.leftOut.map(({ own, characters, messages, text }) => ({ own, characters, messages, text }));
    return { shows: this.shows, leftOut, said: this.said.splice(0), site: this.whole.own.number.site, dressed: this.whole.text.dressed(10) };
  }
}

const { note, entries } = await founded("", "note");
const keys = await NoteKeys.of(note.key);
const channel = new BroadcastChannel(`vialshoal ${note.id}`);

/** A number that can be taken, which costs nothing. */
async function number() {
  const author = await authorOf(random(32));
  for (let counter = 0n; ; counter += 1n) {
    const found = numberOfRank(await rankOf(keys.identity, author.name, counter), 0);
    if (found && found !== note.author.site) return { secret: author.secret, counter, site: found };
  }
}

/** The hash of the message that typed a character of the founder's. */
async function hashOf(sayings, front, at) {
  return sayings.inserter(await sayings.line(TEXT, note.author.site, front), at, front);
}

/** The entry by which another copy of the founder's number, that has these entries, types something else by a lesser hash. */
async function outdoing(some, at, hash) {
  const [author, number] = [await authorOf(note.author.secret), note.author.site];
  for (let many = 0; ; many += 1) {
    const feed = new Feed(core, { entriesAfter: async () => ({ entries: some, last: 0 }) }, keys, "", number);
    await feed.next(() => {});
    feed.hand();
    feed.value.update();
    feed.value.insert(TEXT, at, new TextEncoder().encode(`there${many}`));
    const [{ body, ...place }] = feed.say([TEXT], { author, site: number, claims: null });
    const isLess = isBelow(await hashOf(feed.sayings, feed.value.front(TEXT, number), at), hash);
    feed.close();
    if (!isLess) continue;
    const raw = await sealed(keys, KIND.messages, author, place, body);
    return { hash: hex(await sha256(raw)), raw, isSent: true };
  }
}

note.numbers = [await number(), await number()];
const ann = new Person(keys, new Kept(note, entries));
const bob = new Person(keys, new Kept({ ...noteOf(keys, "", "note"), numbers: [await number(), await number()] }, entries));
await eventually(() => ann.whole.types && bob.whole.types);
const sites = [ann, bob].map(({ whole }) => whole.own.number.site);
await ann.types("both ");
const before = [...ann.store.all];
await ann.types("her");
await ann.types("ee");
ann.does(() => ann.whole.text.look([[5, 7]], { bold: true }));
ann.does(() => ann.whole.text.edit([8, 9, ""]));
await ann.whole.kept();
bob.hears(ann.store.all);
await eventually(() => bob.shows === "both here");
await bob.types(" and Bob");
ann.hears(bob.store.all);
await eventually(() => ann.shows === "both here and Bob");
const { sayings, text } = ann.whole.counting;
const other = await outdoing(before, 5, await hashOf(sayings, text.get(note.author.site), 5));
for (const one of [ann, bob]) one.hears([other]);
await eventually(() => [ann, bob].every(({ whole }, at) => whole.types && whole.own.number.site !== sites[at] && whole.leftOut.length === 2));
const steps = [[ann.told(), bob.told()]];
// What is typed under another number counts; and what was typed is typed again, once.
await bob.types("!");
await bob.recovers();
ann.hears(bob.store.all);
await eventually(() => ann.shows.endsWith("Bob"));
await ann.recovers();
bob.hears(ann.store.all);
await eventually(() => bob.shows === ann.shows && [ann, bob].every(({ whole }) => !whole.leftOut.length));
steps.push([ann.told(), bob.told()]);
const why = await ann.recovers().then(() => "", (wrong) => wrong.message);
ann.whole.close();
const again = new Person(keys, ann.store);
await eventually(() => again.whole.types && again.shows);
steps.push([again.told()]);
console.log(JSON.stringify({ sites, steps, why, key: hex(note.key), raws: again.store.all.map(({ raw }) => hex(raw)) }));
process.exit();
