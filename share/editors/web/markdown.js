// Reads Markdown in a thread of its own, which the page ends where a part of a text takes too long: numbers that it sends meanwhile say
// that it goes on. What it answers is data: no HTML.
import "./markdownit.js";

const MOST_CELLS = 20_000;
// Of how many parts of the work each is reported. The blocks of a text are found first, then it is read what is in them.
const PARTS = 20;
const LEAVES = { code_inline: "code", code_block: "pre", fence: "pre" };

// HTML is text as any other here.
const reader = /** @type {any} */ (self).markdownit({ html: false, linkify: true, maxNesting: 40 });
reader.linkify.set({ fuzzyLink: false, fuzzyEmail: false, fuzzyIP: false });

// A line of a table may be shorter than its cells are many, which would fill the memory.
const table = reader.block.ruler.__rules__.find(({ name }) => name === "table").fn;
reader.block.ruler.at("table", (state, first, last, silent) => {
  const columns = state.src.slice(state.bMarks[first], state.eMarks[first]).split("|").length + 1;
  return columns * (last - first) <= MOST_CELLS && table(state, first, last, silent);
}, { alt: ["paragraph", "reference"] });

// How much work a text is, how much of it was done, and reported; the words that are read now, and what was done before them.
let [all, done, reported, words, before] = [0, 0, 0, "", 0];

/** Reports the work that was done where that is another part. */
function reached(much) {
  done = Math.max(done, much);
  if (done < reported + all / PARTS) return;
  reported = done;
  self.postMessage(done / all);
}

reader.block.ruler.before("table", "reached", (state, first) => {
  reached(state.bMarks[first]);
  return false;
}, { alt: ["paragraph", "reference"] });
reader.inline.ruler.before("text", "reached", (state) => {
  if (state.src === words) reached(before + state.pos);
  return false;
});
reader.core.ruler.at("inline", (state) => {
  before = state.src.length;
  for (const token of state.tokens) {
    if (token.type !== "inline") continue;
    words = token.content;
    state.md.inline.parse(words, state.md, state.env, token.children);
    before += words.length;
  }
});

/** The first steps that a text is read as. */
function read({ text, most }) {
  [all, done, reported] = [2 * text.length, 0, 0];
  const found = [];
  for (const step of steps(reader.parse(text, {}))) {
    found.push(step);
    if (found.length === most) break;
  }
  return found;
}

/**
 * What is to be shown: `[words]`, `[words, "code" or "pre"]`, `["", element]`, an element's begin `["", element, attributes]`
 * or end `["", element, null]`, and a picture `[words, "picture", { href }]`.
 */
function* steps(tokens) {
  for (const token of tokens) {
    if (token.hidden) continue;
    if (token.type === "inline") yield* steps(token.children);
    else if (token.type === "image") yield [token.content, "picture", { href: token.attrGet("src") }];
    else if (token.type in LEAVES) yield [token.content, LEAVES[token.type]];
    else if (token.type === "softbreak") yield ["\n"];
    else if (token.nesting > 0) yield ["", token.tag, attributes(token)];
    else if (token.nesting < 0) yield ["", token.tag, null];
    else if (token.tag) yield ["", token.tag];
    else yield [token.content];
  }
}

function attributes(token) {
  return { href: token.attrGet("href"), start: token.attrGet("start"), align: token.attrGet("style")?.replace("text-align:", "") };
}

self.onmessage = ({ data }) => self.postMessage(read(data));
self.postMessage(null);
