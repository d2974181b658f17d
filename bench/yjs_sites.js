// Answers the scripts of bench/run as the program does, but each site's text is a Y.Text in a Y.Doc. A message is let go of
// when it is taken or merged.
"use strict";
const fs = require("fs");
const Y = require("yjs");

const CHUNK = 1 << 16;
const TEXT = "1";

const docs = new Map();
const messages = new Map();
let sent = 0;
let answers = "";

function docOf(site) {
  if (!docs.has(site)) {
    const doc = new Y.Doc();
    doc.clientID = Number(site);
    docs.set(site, doc);
  }
  return docs.get(site);
}

function flush() {
  fs.writeSync(1, answers, null, "latin1");
  answers = "";
}

function answer(line) {
  answers += line + "\n";
  if (answers.length >= CHUNK) flush();
}

// Only an edit of the site's own is to be sent to others, so no one listens while messages are taken.
function edited(doc, edit) {
  doc.once("update", (message) => {
    sent += 1;
    messages.set(`m${sent}`, message);
    answer(`send m${sent} ${Buffer.from(message).toString("hex")}`);
  });
  edit(doc.getText(TEXT));
  answer("ok");
}

const verbs = {
  type(doc, pos, ...letters) {
    edited(doc, (text) => text.insert(Number(pos), letters.join(" ")));
  },
  cut(doc, begin, end) {
    edited(doc, (text) => text.delete(Number(begin), end - begin));
  },
  take(doc, name) {
    Y.applyUpdate(doc, messages.get(name));
    messages.delete(name);
    answer("taken 0 0");
  },
  merge(doc, other) {
    Y.applyUpdate(doc, Y.encodeStateAsUpdate(docOf(other), Y.encodeStateVector(doc)));
    messages.clear();
    answer("merged");
  },
  text(doc) {
    const shown = doc.getText(TEXT).toString();
    answer(shown ? `text ${shown.length} ${shown}` : "text 0");
  },
};

function* lines() {
  const chunk = Buffer.alloc(CHUNK);
  let rest = "";
  for (let length; (length = fs.readSync(0, chunk)) > 0; ) {
    const parts = (rest + chunk.toString("latin1", 0, length)).split("\n");
    rest = parts.pop();
    yield* parts;
  }
}

for (const line of lines()) {
  const [site, verb, , ...words] = line.split(" ");
  verbs[verb](docOf(site), ...words);
}
flush();
