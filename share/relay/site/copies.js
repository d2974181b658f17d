// Which messages stand for others, as entries say it: docs/SHARING.md has what comes of that.
import { equal, hex, isZeros, join } from "./bytes.js";
import { copiedIn } from "./entry.js";
import { partOf } from "./operation.js";

/** @typedef {import("./sayings.js").Line} Line */
/** @typedef {import("./sayings.js").Piece} Piece */
/** Messages from a seq on, so many, and from which one on their copies are: 0 where nothing remained of them. Who wrote the copies; what names
 * the last message of either's history, or zeros; and whether the author of the messages says so.
 * @typedef {{ seq: number, by: number, many: number, author: string, site: number, last: Uint8Array, byLast: Uint8Array, isOwn: boolean }} Stretch */
/** Whose messages count under a number, up to which seq of those that are a named one or before it.
 * @typedef {(copier: Stretch) => Promise<{ line: Line | null, front: number }>} Counting */

// The most messages of a stretch that are looked at where somebody else than their author says what stands for them.
const MOST_BY_OTHERS = 4_096;

export class Copies {
  /** @type {Map<string, Stretch[]>} */
  #stretches = new Map();

  /** @param {import("./entry.js").Entry} entry that speaks of copies, and is right */
  add({ author, site, text, before, body }) {
    const found = copiedIn(body);
    if (!found) return;
    const [whose, by] = found.whose;
    const isOwn = whose.site === site && equal(whose.author, author);
    const said = found.stretches.map(([seq, from, many]) => (
      { seq, by: from, many, author: hex(by.author), site: by.site, last: before, byLast: found.last, isOwn }));
    const key = `${text} ${whose.site} ${hex(whose.author)}`;
    this.#stretches.set(key, [...this.#stretches.get(key) ?? [], ...said]);
  }

  /** What is said of an author's messages.
   * @param {Line} line */
  of({ text, site, author }) {
    return this.#stretches.get(`${text} ${site} ${author}`) ?? [];
  }
}

/** Those of a branch's messages for which no copy stands that counts.
 * @param {Line} line @param {Piece[]} branch @param {Stretch[]} stretches @param {Counting} counting
 * @param {import("./sayings.js").Digest} digest */
export async function withoutCopied(line, branch, stretches, counting, digest) {
  /** @type {[number, number][]} */
  const copied = [];
  /** @type {Map<string, { seq: number, parts: Map<number, Uint8Array> }>} */
  const byOthers = new Map();
  for (const said of stretches) {
    const { by: copies, front } = await countingCopies(said, counting);
    const [first, last] = await spokenOf(line, branch, said, front, digest);
    if (said.isOwn && first <= last) copied.push([first, last]);
    for (let seq = first; !said.isOwn && said.by && seq <= Math.min(last, first + MOST_BY_OTHERS); seq += 1) {
      const [key, by] = [`${seq} ${said.site} ${said.author}`, said.by + seq - said.seq];
      const one = byOthers.get(key) ?? { seq, parts: new Map() };
      byOthers.set(key, one);
      one.parts.set(by, copies?.counting(by - 1, by)[0]?.data ?? join());
    }
  }
  // Who copied somebody else's message has all of it, in one copy or in all of them, one after the other.
  for (const { seq, parts } of byOthers.values()) {
    const [data, some] = [dataOf(branch, seq), [...parts].sort(([one], [other]) => one - other).map(([, part]) => part)];
    if (data.length && [join(...some), ...some].some((one) => equal(one, data))) copied.push([seq, seq]);
  }
  return copied.reduce((/** @type {Piece[]} */ left, [first, last]) => left.flatMap((piece) => outside(piece, first, last)), branch);
}

/** @param {Stretch} said @param {Counting} counting */
async function countingCopies(said, counting) {
  if (!said.by) return { by: null, front: Infinity };
  const { line, front } = await counting(said);
  return { by: line, front };
}

/** The first and the last of a branch's messages of which it is said what stands for them, where that counts up to a seq; the first is greater
 * where there are none.
 * @param {Line} line @param {Piece[]} branch @param {Stretch} said @param {number} front @param {import("./sayings.js").Digest} digest */
async function spokenOf(line, branch, { seq, by, many, last }, front, digest) {
  const [begin, { one: end }] = [branch[0].one.seq, branch[branch.length - 1]];
  const first = Math.max(begin, seq);
  const most = Math.min(end.seq + end.size - 1, seq + many - 1, seq + front - by);
  return [first, first > most || isZeros(last) ? most : Math.min(most, await line.seqIn(branch, last, digest))];
}

/** What a message of a branch inserts.
 * @param {Piece[]} branch @param {number} seq */
function dataOf(branch, seq) {
  const one = branch.find((piece) => piece.one.seq <= seq && seq < piece.one.seq + piece.one.size)?.one;
  return one ? partOf(one, seq - one.seq, 1).data : join();
}

/** Those of some messages that are before a seq, and those that are after another one.
 * @param {Piece} piece @param {number} first @param {number} last @returns {Piece[]} */
function outside(piece, first, last) {
  const { one, run } = piece;
  const end = one.seq + one.size;
  if (end <= first || last < one.seq) return [piece];
  return [[one.seq, first], [last + 1, end]].filter(([from, to]) => from < to).map(([from, to]) => (
    { one: partOf(one, from - one.seq, to - from), run }));
}
