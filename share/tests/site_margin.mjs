// A note of the second form, plain, over the core and the modules of a relay's page, in Node: which messages count of what comes, and which
// threads its margin has. node site_margin.mjs SITE CORE answers lines of JSON.
import { readFileSync } from "node:fs";
import { createInterface } from "node:readline";
import { pathToFileURL } from "node:url";

const [, , site, wasm] = process.argv;
const of = (name) => import(pathToFileURL(`${site}/${name}.js`).href);
const { Base } = await of("base");
const { hex, join, numberAt } = await of("bytes");
const { Core } = await of("core");
const { KIND, counterOf, headOf } = await of("entry");
const { shownOf } = await of("former");
const { History, messagesOf } = await of("history");
const { derived, digesting } = await of("keys");
const { threadLines } = await of("lines");
const { NoteMargin } = await of("notemargin");
const { messagesIn } = await of("operation");
const { rankOf } = await of("rank");
const { Sayings } = await of("sayings");
const { SharedText } = await of("shared");
const { Value } = await of("value");
const { byKey } = await of("marginal");

const core = new Core(new WebAssembly.Module(readFileSync(wasm)));
const ofHex = (digits) => Uint8Array.from(digits.match(/../g) ?? [], (two) => parseInt(two, 16));
const BODY_AT = 103;

class Note {
  static async of({ key, identity, raws }) {
    const entries = raws.map(ofHex).map((raw) => ({ ...headOf(raw), body: raw.slice(BODY_AT) }));
    const { body } = entries.find(({ kind }) => kind === KIND.opening);
    const [root, founder, number] = [body.slice(32, 64), body.slice(64, 96), numberAt(body, 96, 2)];
    const [hash, baseKey] = [await derived(ofHex(key), "hash"), await derived(body.slice(0, 32), "base")];
    const base = new Base();
    for (const one of entries.filter(({ kind }) => kind === KIND.base)) base.add(one);
    base.begin(root, await digesting(baseKey));
    await base.look();
    const { entries: copied } = base;
    // Nothing counts before all that was copied is here.
    if (!copied) return null;
    const note = new Note();
    const chunks = join(...copied.flatMap((one) => [[one.body.length % 256, one.body.length >> 8], one.body]));
    note.value = new Value(core, hash, { founder, number, baseKey, root, base: chunks }, 0);
    note.sayings = new Sayings(await digesting(hash), { author: founder, site: number }, copied);
    note.text = new SharedText(note.value);
    note.margin = new NoteMargin(() => ({ sayings: note.sayings, text: new Map(note.value.fronts(1)), margin: new Map(note.value.fronts(2)) }));
    note.entries = entries;
    await note.come(entries, ofHex(identity));
    return note;
  }

  async come(entries, identity) {
    for (const one of entries) {
      if (one.kind === KIND.claim) {
        const rank = await rankOf(identity, one.author, counterOf(one));
        this.value.claim(one.author, one.site, rank);
        this.sayings.claim(one.author, one.site, rank);
      } else if (one.kind === KIND.messages && this.value.add(one)) {
        this.sayings.add(one);
      } else if (one.kind === KIND.anew) {
        this.sayings.anew(one);
      }
      // It may be asked at any time.
      if (one.count % 3 === 1) await this.counts();
      if (one.count % 5 === 1) await this.leftOut();
    }
    this.value.update();
    this.text.changed();
  }

  /** Of each text and number how many messages count, what their characters are, and what inserted each. */
  async counts() {
    const found = [];
    for (const text of [1, 2]) {
      for (const [number, front] of this.value.fronts(text).sort(([one], [other]) => one - other)) {
        const line = await this.sayings.line(text, number, front);
        if (!line) continue;
        const hashes = [];
        for (let at = 0; at < 2 ** 20; at += 1) {
          const hash = await this.sayings.inserter(line, at, front);
          if (!hash) break;
          hashes.push(line.isOfBase ? "" : hex(hash));
        }
        found.push([text, number, front, line.reached >= front, hashes, hex(line.data(0, hashes.length, front))]);
      }
    }
    return found;
  }

  /** The messages that don't count for good, by text, number, author and seq. */
  async leftOut() {
    const found = [];
    for (const text of [1, 2]) {
      for (const { line, branches } of await this.sayings.leftOut(text, new Map(this.value.fronts(text)))) {
        const messages = messagesIn(branches.flat().map(({ one }) => one));
        found.push(...messages.map(({ seq }) => [text, line.site, line.author, seq]));
      }
    }
    return found;
  }

  async threads() {
    await this.margin.look();
    for (const id of this.margin.said.threads()) {
      const { anchor, new: put } = this.margin.said.about(id);
      for (const names of [...anchor.at, ...put]) {
        const both = [this.text.extentOf(names), this.text.whereabouts().of(names)].map((one) => JSON.stringify(one));
        if (both[0] !== both[1]) throw new Error(`${names}: ${both}`);
      }
    }
    const stood = this.margin.stood(this.text).map((one) => ({ ...one, thread: this.margin.said.thread(one.id) }));
    const place = ({ spot: { begin } }) => begin ?? Infinity;
    stood.sort((one, other) => (place(one) === place(other) ? byKey(this.margin.said.of(one.id), this.margin.said.of(other.id))
      : place(one) - place(other)));
    return threadLines(stood, { text: this.text, isOwn: () => true });
  }
}

/** How the text came to be, and what it was at each step. */
async function historyOf(note) {
  await note.margin.look();
  const history = new History(new Map(note.value.fronts(1)), note.margin.said.suggested());
  for (const one of note.entries) if (one.kind === KIND.messages && one.text === 1) history.add(messagesOf(one));
  const texts = Array.from({ length: history.length + 1 }, (_, at) => shownOf(note.text.past(history.frontsAt(at))).text);
  return { length: history.length, steps: history.steps, texts };
}

const does = { counts: (note) => note.counts(), leftOut: (note) => note.leftOut(), threads: (note) => note.threads(), history: historyOf };

for await (const line of createInterface({ input: process.stdin })) {
  const asked = JSON.parse(line);
  const note = await Note.of(asked);
  console.log(JSON.stringify(note ? await does[asked.do](note) : []));
  note?.value.close();
}
