// What of a note's entries counts as the page of its text has it, over the core, in Node. node site_feed.mjs SITE CORE answers lines of JSON:
// of a key and entries, in parts, as they come.
import { readFileSync } from "node:fs";
import { createInterface } from "node:readline";
import { pathToFileURL } from "node:url";

const [, , site, wasm] = process.argv;
const of = (name) => import(pathToFileURL(`${site}/${name}.js`).href);
const { Core } = await of("core");
const { Feed } = await of("feed");
const { NoteKeys } = await of("keys");

const core = new Core(new WebAssembly.Module(readFileSync(wasm)));
const ofHex = (digits) => Uint8Array.from(digits.match(/../g) ?? [], (two) => parseInt(two, 16));
const TEXTS = [1, 2];

/** What counts after each part. */
async function counted({ key, parts }) {
  const entries = parts.map((raws) => raws.map((raw) => ({ raw: ofHex(raw) })));
  // A place in the store is how many parts were read.
  const store = { entriesAfter: async (_, after) => ({ entries: entries[after] ?? [], last: after + 1 }) };
  const feed = new Feed(core, store, await NoteKeys.of(ofHex(key)), "", 0);
  const found = [];
  for (const _ of parts) {
    await feed.next(() => {});
    feed.hand();
    feed.value?.update();
    const { facts, value } = feed;
    found.push({ begins: value !== null, why: feed.why, isOpen: facts.founder !== null, isCopy: facts.isCopy, numbers: facts.numbers().map((one) => one.site),
      taken: [...facts.taken()], fronts: TEXTS.map((text) => [text, ...value?.fronts(text) ?? []]) });
  }
  feed.close();
  return found;
}

for await (const line of createInterface({ input: process.stdin })) {
  process.stdout.write(`${JSON.stringify(await counted(JSON.parse(line)))}\n`);
}
