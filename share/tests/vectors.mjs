// Runs what share/engine/vectors has of an editor that counts in UTF-16 by the page's client: lines, what it says as it opens a note again,
// what is remarked, and typing that suggests.
import assert from "node:assert/strict";
import { readFileSync } from "node:fs";
import "./codemirror.mjs";
import { changed, Client, Lines, pieces } from "../editors/web/client.js";
import { Edited } from "../editors/web/edited.js";
import { gathered } from "../editors/web/gathered.js";
import { Stretches } from "../editors/web/stretches.js";
import { Threads } from "../editors/web/threads.js";

/** The cases of a file. */
function casesOf(name) {
  return JSON.parse(readFileSync(new URL(`../engine/vectors/${name}.json`, import.meta.url), "utf8")).cases;
}

/** What a page shows, as plain values. */
class Shown {
  cursor = null;
  cursors = [];
  looks = [];
  unmade = [];
  words = "";
  state = {};

  #editor = new Edited(CodeMirror(), { edit() {}, moved() {}, changed() {} });

  constructor(text) {
    this.#editor.change([[0, 0, text]], 0);
  }

  get cm() { return this.#editor.cm; }

  get places() { return this.#editor.places; }

  /** The page's text, which is the editor's. */
  get text() { return this.#editor.text; }

  change(changes, cursor) { this.#editor.change(changes, cursor); }

  replace(text) { return this.#editor.replace(text); }

  /** Where the user is, and the other end of a selection. */
  get place() { return this.#editor.place(); }

  set place([at, anchor = at]) {
    const [head, other] = [at, anchor].map((index) => {
      const before = this.text.slice(0, index).split("\n");
      return { line: before.length - 1, ch: before.at(-1).length };
    });
    this.#editor.cm.setSelections([{ anchor: other, head }]);
  }
}

/** A view that has a client's doings shown, and hears of remarks. */
function viewOf(shown, remarks = () => undefined) {
  return {
    change(changes, cursor) {
      shown.change(changes, cursor);
      shown.cursor = cursor ?? shown.cursor;
    },
    replace(text) { return shown.replace(text); },
    cursors(list) { shown.cursors = list; },
    looks(list) { shown.looks = list; },
    state(line) { shown.state = line; },
    say(words) { shown.words = words; },
    refused(words, changes) { Object.assign(shown, { words, unmade: changes }); },
    remarks,
    answered() {},
  };
}

/** Does what a step says. */
function does(step, client, shown) {
  if ("user" in step) {
    assert.equal(changed(shown.text, step.user), (shown.change(step.user), shown.text));
    client.edit(step.user);
  } else if ("line" in step) {
    client.take(step.line);
  } else if ("place" in step) {
    shown.place = step.place;
  } else if ("key" in step) {
    assert.equal(client.waits(), step.waits);
  } else if ("patience" in step) {
    client.gaveUp();
  } else if ("away" in step) {
    client.away();
  } else if ("opens" in step) {
    assert.deepEqual([client.again(), shown.text], [step.opens, step.shows]);
  } else if ("opened" in step) {
    client.back(step.opened);
    assert.deepEqual(shown.unmade, (step.unmade ?? [shown.unmade]).flat());
  } else {
    assert.fail("no such step");
  }
}

function play(one) {
  const shown = new Shown(one.open.text);
  let sent = [];
  let now = 0;
  const client = new Client(one.open, (line) => sent.push(line), viewOf(shown), () => 1000 * now);
  for (const step of one.steps) {
    now = step.at ?? now;
    does(step, client, shown);
    if ("sends" in step) {
      assert.deepEqual(sent, step.sends);
      sent = [];
    }
    const has = { ...shown, text: shown.text, place: shown.place, types: shown.state.types, version: client.version, made: client.made };
    for (const [name, value] of Object.entries(step.then ?? {})) assert.deepEqual(has[name], value, name);
  }
}

/** That a line comes back whole, whatever the size of its pieces. */
function cut() {
  const line = { notice: "text", text: "a\u{1f370}\r\n\"\ud800\u2028" };
  for (let size = 1; size < 40; size += 1) {
    const lines = new Lines();
    const came = [...pieces(line, size), ...pieces(line, size)].flatMap((piece) => [...lines.of(piece)]);
    assert.deepEqual(came, [line, line]);
  }
}

/** That one who only reads says now and then what it has. */
function read() {
  const sent = [];
  const client = new Client({ version: 0, edits: 0 }, (line) => sent.push(line), viewOf(new Shown("")));
  for (let version = 1; version <= 250; version += 1) client.take({ notice: "changes", version, edits: 0, changes: [] });
  assert.deepEqual(sent, [{ do: "seen", version: 100 }, { do: "seen", version: 200 }]);
}

/** That an edit of very many changes is sent as several. */
function replaceAll() {
  const sent = [];
  const client = new Client({ version: 3, edits: 0 }, (line) => sent.push(line), viewOf(new Shown("")));
  const changes = Array.from({ length: 25_000 }, (_, at) => [at, at, "x"]);
  client.edit(changes);
  assert.deepEqual(sent.map((line) => [line.version, line.edits, line.changes.length, line.join]),
    [[3, 1, 10_000, undefined], [3, 2, 10_000, true], [3, 3, 5_000, true]]);
  assert.deepEqual(sent.flatMap((line) => line.changes), changes);
}

/** That whoever asks hears whether places in an answer are still those of the text, and alone of a fault where he says so. */
async function asks() {
  const [sent, shown] = [[], new Shown("tea")];
  const client = new Client({ version: 0, edits: 0 }, (line) => sent.push(line), viewOf(shown));
  const asked = [client.askOf({ do: "who", begin: 0, end: 3 }), client.ask({ do: "reply" }, true), client.ask({ do: "on" })];
  assert.deepEqual(sent.map((line) => line.version), [0, undefined, undefined]);
  client.take({ answer: "who", id: sent[0].id, edits: 0 });
  const who = await asked[0];
  assert.equal(who.isOld(), false);
  client.take({ notice: "changes", version: 1, edits: 0, changes: [[0, 0, "a"]] });
  assert.equal(who.isOld(), true);
  client.take({ answer: "reply", id: sent[1].id, error: "thread", words: "quiet" });
  assert.deepEqual([(await asked[1]).error, shown.words], ["thread", ""]);
  client.take({ answer: "on", id: sent[2].id, error: "failed", words: "loud" });
  assert.deepEqual([(await asked[2]).error, shown.words], ["failed", "loud"]);
}

/** What is gathered, as the vectors have it: places are columns of one line. */
function asGathered(one) {
  return one && { from: { line: 0, ch: one[0] }, to: { line: 0, ch: one[1] }, put: one[2] };
}

/** That what is typed is gathered. */
function gathers(one) {
  const [from, to] = [one.from, one.to].map((ch) => ({ line: 0, ch }));
  const { now, cursor, isElsewhere } = gathered(asGathered(one.gathered ?? undefined), { from, to, put: one.put, back: one.back ?? 0 });
  assert.deepEqual([now, cursor.ch, isElsewhere], [asGathered(one.then ?? undefined), one.cursor, one.sends ?? false]);
}

/** A page that shows where threads are. */
class Remarked extends Shown {
  composing = { isOn: false };

  constructor(text) {
    super(text);
    this.stretches = new Stretches(this);
  }

  inSight() { return [{ line: 0, ch: 0 }, { line: this.cm.lastLine(), ch: 0 }]; }

  shows(threads) {
    this.stretches.show(threads.filter(({ begin }) => begin !== undefined).map((one) => ({ ...one, className: "", put: "" })));
  }
}

/** That threads are shown where they are. */
async function remarks(one) {
  const [shown, sent] = [new Remarked(one.open.text), []];
  let isDue = false;
  const client = new Client(one.open, (line) => sent.push(line), viewOf(shown, () => { isDue = true; }));
  const threads = new Threads(shown, (request) => client.askOf(request), {
    came: () => shown.shows(threads.inSight), isListed: () => false, kept: () => [],
  });
  threads.news = () => { isDue = true; };
  let asked;
  for (const step of one.steps) {
    if ("asks" in step) {
      assert.equal(isDue, step.asks !== null);
      [isDue, asked] = [false, isDue && threads.now()];
      if (asked) assert.deepEqual([sent.at(-1).do, sent.at(-1).version], ["remarks", step.asks]);
    } else if ("answer" in step) {
      client.take({ answer: "remarks", id: sent.findLast((line) => line.do === "remarks").id, ...step.answer });
      await asked;
    } else {
      does(step, client, shown);
    }
    if ("then" in step) {
      const found = Object.fromEntries(["8:0", "8:1", "8:2", "8:3"].map((id) => [id, shown.stretches.placeOf(id)]).filter(([, at]) => at)
        .map(([id, { from, to }]) => [id, [shown.places.of(from), shown.places.of(to)]]));
      assert.deepEqual(found, step.then);
    }
  }
}

let failed = 0;
async function run(name, test) {
  try {
    await test();
  } catch (why) {
    failed += 1;
    console.log(`${name}: ${why.message}`);
  }
}

const cases = [...casesOf("client"), ...casesOf("again")].filter((one) => ["any", "utf-16"].includes(one.units));
for (const one of cases) await run(one.name, () => play(one));
const [suggesting, remarked] = [casesOf("suggesting"), casesOf("remarks")];
for (const one of suggesting) await run(one.name, () => gathers(one));
for (const one of remarked) await run(one.name, () => remarks(one));
await run("lines in pieces", cut);
await run("a reader", read);
await run("very many changes", replaceAll);
await run("answers", asks);
console.log(`${cases.length + suggesting.length + remarked.length} cases, ${failed} failed`);
process.exit(failed ? 1 : 0);
