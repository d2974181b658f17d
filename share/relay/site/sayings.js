// Which messages of a note count, one by one, with their hashes. The core says how many of each number do; whose that is, and which of two
// branches holds, is found here as docs/NOTES.md has it.
import { equal, hex, isZeros, join, numberAt } from "./bytes.js";
import { operationsOf } from "./chunk.js";
import { Copies, withoutCopied } from "./copies.js";
import { messagesIn, partOf, spelled } from "./operation.js";
import { isBelow } from "./rank.js";

/** @typedef {import("./chunk.js").Operation} Operation */
/** Messages of an author in a row, as an entry has them, with their hashes as far as somebody asked for one.
 * @typedef {{ first: number, count: number, before: Uint8Array, body: Uint8Array, hashes: Uint8Array[] }} Run */
/** Messages, and the run that has them; of a single one its hash, and that of the one before it, where somebody asked.
 * @typedef {{ one: Operation, run: Run, hash?: string, before?: string }} Piece */
/** What somebody wrote that doesn't count for good, branch by branch.
 * @typedef {{ line: Line, branches: Piece[][] }} LeftOut */
/** What names something by a key.
 * @typedef {(data: Uint8Array) => Promise<Uint8Array>} Digest */

const [HASH_BYTES, ON_BYTES, OF_A_MESSAGE, TEXT_AT] = [32, 34, [1], 4];
const BEGIN = hex(new Uint8Array(HASH_BYTES));

/** The first place of a list, all of whose items up to somewhere are before something.
 * @template T @param {T[]} list @param {(one: T) => boolean} isBefore */
function placeIn(list, isBefore) {
  let [low, high] = [0, list.length];
  while (low < high) {
    const middle = (low + high) >> 1;
    if (isBefore(list[middle])) low = middle + 1;
    else high = middle;
  }
  return low;
}

/** What an author said under a number in a text. */
export class Line {
  // Rises as other messages may count than did.
  times = 0;
  isForked = false;
  // The seq of the last message; and up to which ones their author says, by their hashes, that they were made anew.
  last = 0;
  /** @type {Set<string>} */
  anew = new Set();
  text;
  site;
  author;
  #author;
  /** @type {Run[]} */
  runs = [];
  // What counts, as far as somebody asked; of that the insertions; up to which seq, and the run after those.
  /** @type {Piece[]} */
  #pieces = [];
  /** @type {Piece[]} */
  #typed = [];
  #reached = 0;
  #next = 0;

  /** @param {number} text @param {number} site @param {Uint8Array | null} author none of what was copied */
  constructor(text, site, author) {
    [this.text, this.site, this.author, this.#author] = [text, site, author ? hex(author) : "", author];
  }

  /** Up to which seq it is known what counts. */
  get reached() {
    return this.#reached;
  }

  /** How many characters were inserted. */
  get length() {
    const last = this.#typed[this.#typed.length - 1]?.one;
    return last ? last.at + last.data.length : 0;
  }

  /** Whether its messages were copied. */
  get isOfBase() {
    return this.#author === null;
  }

  /** @param {Run} run */
  add(run) {
    const at = placeIn(this.runs, ({ first }) => first < run.first);
    for (let same = at; this.runs[same]?.first === run.first; same += 1) if (isAlike(this.runs[same], run)) return;
    const [last, next] = [this.runs[at - 1], this.runs[at]];
    this.isForked ||= Boolean(last && last.first + last.count > run.first) || Boolean(next && next.first < run.first + run.count);
    this.runs.splice(at, 0, run);
    this.last = Math.max(this.last, run.first + run.count - 1);
    if (this.isForked) this.choose([]);
  }

  /** Takes over what counts.
   * @param {Piece[]} pieces */
  choose(pieces) {
    [this.#pieces, this.#typed, this.#reached, this.#next, this.times] = [[], [], 0, 0, this.times + 1];
    for (const piece of pieces) this.#take(piece);
  }

  /** Has that be known which counts up to a seq.
   * @param {number} front @param {Digest} digest */
  async reach(front, digest) {
    while (this.isForked && front > this.#reached) {
      const { length } = this.runs;
      const [holds = []] = await this.branches(front, digest);
      if (length !== this.runs.length) continue;
      this.choose(holds.filter(({ one }) => one.seq <= front));
      // Own edits count that aren't said yet.
      break;
    }
    while (!this.isForked && this.#reached < front && this.runs[this.#next]?.first === this.#reached + 1) {
      const run = this.runs[this.#next];
      for (const one of operationsIn(run)) this.#take({ one, run });
      this.#next += 1;
    }
  }

  /** The operations from behind a seq on, up to another one.
   * @param {number} after @param {number} front */
  counting(after, front) {
    /** @type {Operation[]} */
    const found = [];
    for (let at = placeIn(this.#pieces, ({ one }) => one.seq + one.size <= after + 1); this.#pieces[at]?.one.seq <= front; at += 1) {
      const { one } = this.#pieces[at];
      const [first, end] = [Math.max(after + 1, one.seq), Math.min(front + 1, one.seq + one.size)];
      found.push(first > one.seq || end < one.seq + one.size ? partOf(one, first - one.seq, end - first) : one);
    }
    return found;
  }

  /** The bytes of characters, of messages up to a seq; nothing where they aren't all there.
   * @param {number} at @param {number} length @param {number} front */
  data(at, length, front) {
    const found = new Uint8Array(length);
    let place = placeIn(this.#typed, ({ one }) => one.at + one.data.length <= at);
    for (let many = 0; many < length; place += 1) {
      const one = this.#typed[place]?.one;
      if (!one || one.at > at + many) return null;
      const some = one.data.subarray(at + many - one.at, at + length - one.at);
      if (seqOf(one, at + many + some.length - 1) > front) return null;
      found.set(some, many);
      many += some.length;
    }
    return found;
  }

  /** The hash of the message, up to a seq, that inserted a character; zeros of one that was copied; nothing where it isn't there.
   * @param {number} at @param {number} front @param {Digest} digest */
  async inserter(at, front, digest) {
    const { one, run } = this.#typed[placeIn(this.#typed, (piece) => piece.one.at + piece.one.data.length <= at)] ?? {};
    if (!one || !run || one.at > at || seqOf(one, at) > front) return null;
    if (this.isOfBase) return new Uint8Array(HASH_BYTES);
    return (await this.#hashes(run, seqOf(one, at) - run.first + 1, digest))[seqOf(one, at) - run.first];
  }

  /** @param {Piece} piece */
  #take(piece) {
    this.#pieces.push(piece);
    if (piece.one.data.length) this.#typed.push(piece);
    this.#reached = piece.one.seq + piece.one.size - 1;
  }

  /** Its messages, in branches of which each goes on from a message, the first one from the begin: that holds, since of those that have the
   * same one before them it has the one of the least hash. Where there is but one it is given without what counts of it.
   * @param {number | null} front up to which seq that is, or nothing where the number is another's @param {Digest} digest
   * @returns {Promise<Piece[][]>} */
  async branches(front, digest) {
    if (!this.isForked && !this.anew.size) return this.#after(front, digest);
    const next = await this.#nexts(digest);
    /** @type {Piece[][]} */
    const found = [];
    const begins = next(0, BEGIN);
    for (let begin = begins.pop(); begin; begin = begins.pop()) {
      const branch = [begin];
      for (let all = next(begin.one.seq, begin.hash); all.length;) {
        const piece = /** @type {Piece} */ (all.pop());
        branch.push(piece);
        for (const other of all) begins.push(other);
        all = next(piece.one.seq, piece.hash);
      }
      found.push(branch);
    }
    return found;
  }

  /** The seq of the one of some messages that has a hash; 0 where none does.
   * @param {Piece[]} pieces @param {Uint8Array} hash @param {Digest} digest */
  async seqIn(pieces, hash, digest) {
    for (const run of new Set(pieces.map((piece) => piece.run))) {
      const seq = run.first + (await this.#hashes(run, run.count, digest)).findIndex((one) => equal(one, hash));
      const isIt = (/** @type {Piece} */ { one, hash: its }) => one.seq <= seq && seq < one.seq + one.size && (!its || its === hex(hash));
      if (seq >= run.first && pieces.some(isIt)) return seq;
    }
    return 0;
  }

  /** The seq of the one that has a hash, of the messages that count from a seq on; 0 where none does.
   * @param {number} seq @param {Uint8Array} hash @param {Digest} digest */
  seqCounting(seq, hash, digest) {
    return this.seqIn(this.#pieces.slice(placeIn(this.#pieces, ({ one }) => one.seq + one.size <= seq)), hash, digest);
  }

  /** Branches without what their author says that it was made anew.
   * @param {Piece[][]} branches */
  withoutAnew(branches) {
    /** @type {Map<string | undefined, Piece>} */
    const named = new Map(this.anew.size ? branches.flat().map((piece) => [piece.hash, piece]) : []);
    const made = new Set();
    for (const said of this.anew) {
      for (let piece = named.get(said); piece && !made.has(piece); piece = named.get(piece.before)) made.add(piece);
    }
    return branches.map((branch) => branch.filter((piece) => !made.has(piece))).filter(({ length }) => length > 0);
  }

  /** The hash of the last of some messages.
   * @param {Piece} piece @param {Digest} digest */
  async lastHash({ one, run }, digest) {
    const index = one.seq + one.size - 1 - run.first;
    return (await this.#hashes(run, index + 1, digest))[index];
  }

  /** The messages behind those that count, where none is missing. Of another's number that is seen by their seqs alone: there may be any amount.
   * @param {number | null} front @param {Digest} digest @returns {Promise<Piece[][]>} */
  async #after(front, digest) {
    /** @type {Piece[]} */
    const found = [];
    let end = front ?? 0;
    for (const [at, run] of this.runs.slice().entries()) {
      const last = run.first + run.count - 1;
      if (last <= end) continue;
      if (run.first > end + 1 || (front !== null && !await this.#goesOn(run, this.runs[at - 1], digest))) break;
      for (const one of operationsIn(run)) {
        const many = Math.min(one.size, one.seq + one.size - 1 - end);
        if (many > 0) found.push({ one: partOf(one, one.size - many, many), run });
      }
      end = last;
    }
    return found.length ? [found] : [];
  }

  /** Whether a run's first message has the last one of another run before it, or none where there is no other.
   * @param {Run} run @param {Run | undefined} other @param {Digest} digest */
  async #goesOn({ before }, other, digest) {
    return hex(before) === (other ? hex((await this.#hashes(other, other.count, digest))[other.count - 1]) : BEGIN);
  }

  /** Gives the messages that go on from the one with a seq and a hash, that of the least hash last.
   * @param {Digest} digest */
  async #nexts(digest) {
    /** @type {Map<string, Map<string, Piece>>} */
    const found = new Map();
    for (const run of this.runs.slice()) {
      const hashes = (await this.#hashes(run, run.count, digest)).map(hex);
      messagesIn(operationsIn(run)).forEach((one, index) => {
        const [hash, before] = [hashes[index], index ? hashes[index - 1] : hex(run.before)];
        const some = found.get(`${one.seq} ${before}`) ?? new Map();
        found.set(`${one.seq} ${before}`, some.set(hash, { one, run, hash, before }));
      });
    }
    return (/** @type {number} */ seq, /** @type {string | undefined} */ hash) => (
      [...found.get(`${seq + 1} ${hash}`) ?? []].sort(([one], [other]) => (one < other ? 1 : -1)).map(([, piece]) => piece));
  }

  /** The hashes of the first messages of a run, so many at least.
   * @param {Run} run @param {number} many @param {Digest} digest */
  async #hashes(run, many, digest) {
    const { hashes } = run;
    if (hashes.length >= many) return hashes;
    const [author, ons, messages] = [/** @type {Uint8Array} */ (this.#author), onsOf(run), messagesIn(operationsIn(run))];
    const found = hashes.slice();
    for (let at = found.length; at < many; at += 1) {
      const before = at ? found[at - 1] : run.before;
      found.push(await digest(join(OF_A_MESSAGE, author, before, spelled(messages[at], this.text), ons.get(at) ?? [])));
    }
    return (run.hashes = found);
  }
}

/** @param {Run} one @param {Run} other */
const isAlike = (one, other) => one.count === other.count && equal(one.before, other.before) && equal(one.body, other.body);

/** Whether a message is as another one, if there is one.
 * @param {Piece} piece @param {Piece | undefined} other @param {number} text */
const isSame = ({ one }, other, text) => other !== undefined && equal(spelled(one, text), spelled(other.one, text));

/** The seq of the message that inserted a character.
 * @param {Operation} one @param {number} at */
const seqOf = (one, at) => (one.size > 1 ? one.seq + at - one.at : one.seq);

/** @param {Run} run */
const operationsIn = ({ body }) => operationsOf(body.subarray(2 + ON_BYTES * numberAt(body, 0, 2)));

/** What some messages of a run build on, by their indices.
 * @param {Run} run */
function onsOf({ body }) {
  const many = numberAt(body, 0, 2);
  return new Map(Array.from({ length: many }, (_, at) => 2 + ON_BYTES * at).map((at) => (
    [numberAt(body, at, 2), body.subarray(at + 2, at + ON_BYTES)])));
}

/** From where to where the insertions of each site go that don't count for good. */
class Extents {
  /** @type {Map<number, [number, number]>} */
  #extents = new Map();

  /** @param {Piece[]} pieces */
  add(pieces) {
    for (const { one: { site, at, data } } of pieces) {
      const [begin, end] = this.#extents.get(site) ?? [at, at];
      if (data.length) this.#extents.set(site, [Math.min(begin, at), Math.max(end, at + data.length)]);
    }
  }

  /** @param {number} site */
  of(site) {
    return this.#extents.get(site) ?? [0, 0];
  }
}

/** A line of which not all counts; whether its author has the number, and up to which seq it counts.
 * @typedef {{ line: Line, isHeld: boolean, front: number }} Apart */

/** All that is said in a note. */
export class Sayings {
  // Which messages stand for which.
  copies = new Copies();
  #digest;
  #founder;
  /** @type {Map<string, Line>} */
  #lines = new Map();
  /** @type {Map<number, { author: string, rank: Uint8Array }>} */
  #claims = new Map();
  // What was copied, and of which numbers.
  /** @type {Map<string, Line>} */
  #copied = new Map();
  /** @type {Set<number>} */
  #sites = new Set();
  // What doesn't count for good, and of which messages that was found.
  /** @type {LeftOut[]} */
  #leftOut = [];
  #seen = "[]";
  #lost = new Extents();

  /** @param {Digest} digest what names messages @param {{ author: Uint8Array, site: number }} founder
   * @param {import("./entry.js").Entry[]} base what was copied, in order */
  constructor(digest, founder, base) {
    [this.#digest, this.#founder] = [digest, founder];
    for (const { before, body } of base) {
      const [operations, text] = [operationsOf(body), numberAt(body, TEXT_AT, 2)];
      const { site, seq } = operations[0];
      const line = this.#copied.get(`${text} ${site}`) ?? new Line(text, site, null);
      this.#copied.set(`${text} ${site}`, line);
      const count = operations.reduce((sum, { size }) => sum + size, 0);
      line.add({ first: seq, count, before, body: join([0, 0], body), hashes: [] });
      this.#sites.add(site);
    }
  }

  /** A claim came.
   * @param {Uint8Array} author @param {number} site @param {Uint8Array} rank */
  claim(author, site, rank) {
    const held = this.#claims.get(site);
    if (!held || isBelow(rank, held.rank)) this.#claims.set(site, { author: hex(author), rank });
  }

  /** An entry of messages came, whose body is right.
   * @param {import("./value.js").Saying} entry */
  add({ author, site, text, first, count, before, body }) {
    this.#lineOf(text, site, author).add({ first, count, before, body, hashes: [] });
  }

  /** An author says that messages were made anew, up to one.
   * @param {import("./entry.js").Head} entry */
  anew({ author, site, text, before }) {
    this.#lineOf(text, site, author).anew.add(hex(before));
  }

  /** What counts of a number in a text, of which the core says up to which seq that is.
   * @param {number} text @param {number} site @param {number} front */
  async line(text, site, front) {
    const line = this.#copied.get(`${text} ${site}`) ?? this.#lines.get(`${text} ${site} ${this.#holder(site)}`);
    if (!line || !front) return null;
    await line.reach(front, this.#digest);
    return line;
  }

  /** So it was by this browser's user, which isn't read yet.
   * @param {import("./own.js").Word} word */
  wasMadeAnew({ author, site, text, before }) {
    this.#lines.get(`${text} ${site} ${author}`)?.anew.add(hex(before));
  }

  /** What of a text doesn't count for good: its number is another's, or of two branches the other one holds, or it builds on what is so.
   * @param {number} text @param {Map<number, number>} fronts how many messages of each number count */
  async leftOut(text, fronts) {
    /** @type {Apart[]} */
    const apart = [];
    for (const line of this.#lines.values()) {
      const holder = this.#holder(line.site);
      const isHeld = holder === line.author;
      const front = isHeld ? fronts.get(line.site) ?? 0 : 0;
      const isKnown = line.text === text && (holder !== undefined || this.#sites.has(line.site));
      if (isKnown && (line.isForked || line.last > front)) apart.push({ line, isHeld, front });
    }
    const seen = JSON.stringify(apart.map(({ line, ...one }) => [line.site, line.author, line.runs.length, line.anew.size, one,
      this.copies.of(line).map(({ site }) => fronts.get(site))]));
    if (seen !== this.#seen) [this.#leftOut, this.#seen] = [await this.#leftOutOf(apart, fronts), seen];
    return this.#leftOut;
  }

  /** Whether a character is one of those that don't count for good, and of which another one may have the name now.
   * @param {import("./chunk.js").Place} name */
  isLost([site, at]) {
    const [begin, end] = this.#lost.of(site);
    return begin <= at && at < end;
  }

  /** Whether somebody wrote two things under a number in one place.
   * @param {string} author @param {number} site */
  isForked(author, site) {
    return [...this.#lines.values()].some((line) => line.isForked && line.site === site && line.author === author);
  }

  /** What names the last message of a branch.
   * @param {Line} line @param {Piece[]} branch */
  lastOf(line, branch) {
    return line.lastHash(branch[branch.length - 1], this.#digest);
  }

  /** Whether messages of a number were copied.
   * @param {number} site */
  isCopied(site) {
    return this.#sites.has(site);
  }

  /** The hash of the message that inserted a character.
   * @param {Line} line @param {number} at @param {number} front */
  inserter(line, at, front) {
    return line.inserter(at, front, this.#digest);
  }

  /** @param {Apart[]} apart @param {Map<number, number>} fronts */
  async #leftOutOf(apart, fronts) {
    /** @type {Map<Line, Piece[][]>} */
    const found = new Map();
    /** @type {{ line: Line, next: Piece[] }[]} */
    const blocked = [];
    this.#lost = new Extents();
    for (const { line, isHeld, front } of apart) {
      const branches = await line.branches(isHeld ? front : null, this.#digest);
      const [holds = []] = isHeld ? branches.splice(0, 1) : [];
      const [counting, next] = [holds.slice(0, front), holds.filter(({ one }) => one.seq > front)];
      this.#lost.add(branches.flat());
      found.set(line, branches.map((branch) => branch.filter((piece) => !isSame(piece, counting[piece.one.seq - 1], line.text))));
      if (next.length) blocked.push({ line, next });
    }
    for (const { line, next } of await this.#buildingOnLost(blocked, fronts)) found.get(line)?.push(next);
    const left = await Promise.all([...found].map(async ([line, branches]) => ({ line, branches: await this.#notMadeAgain(line, branches, fronts) })));
    return left.filter(({ branches }) => branches.length > 0);
  }

  /** Branches without what was made anew, as their author says, and without what a copy stands for that counts. Where he says which messages
   * stand for which, that alone is what he says.
   * @param {Line} line @param {Piece[][]} branches @param {Map<number, number>} fronts */
  async #notMadeAgain(line, branches, fronts) {
    const stretches = this.copies.of(line);
    const some = (stretches.some(({ isOwn }) => isOwn) ? branches : line.withoutAnew(branches)).filter(({ length }) => length > 0);
    if (!stretches.length) return some;
    /** @type {import("./copies.js").Counting} */
    const counting = async ({ site, author, by, byLast }) => {
      const front = this.#holder(site) === author ? fronts.get(site) ?? 0 : 0;
      const copies = await this.line(line.text, site, front);
      return { line: copies, front: copies && !isZeros(byLast) ? Math.min(front, await copies.seqCounting(by, byLast, this.#digest)) : front };
    };
    const left = await Promise.all(some.map((branch) => withoutCopied(line, branch, stretches, counting, this.#digest)));
    return left.filter(({ length }) => length > 0);
  }

  /** Those that lack characters of such as don't count for good, or have others there.
   * @template {{ line: Line, next: Piece[] }} Of @param {Of[]} blocked @param {Map<number, number>} fronts */
  async #buildingOnLost(blocked, fronts) {
    /** @type {Of[]} */
    const found = [];
    const sites = new Set();
    for (let [left, many] = [blocked, Infinity]; left.length < many;) {
      many = left.length;
      const are = await Promise.all(left.map(({ line, next }) => this.#buildsOnLost(line, next[0].one, fronts, sites)));
      const some = left.filter((_, at) => are[at]);
      left = left.filter((_, at) => !are[at]);
      for (const { line } of some) sites.add(line.site);
      found.push(...some);
    }
    return found;
  }

  /** Whether a message is one of those, where what comes next of these sites is.
   * @param {Line} line @param {Operation} next @param {Map<number, number>} fronts @param {Set<number>} sites */
  async #buildsOnLost({ text, site }, { cause, names }, fronts, sites) {
    /** @type {import("./chunk.js").Names[]} */
    const mentioned = cause ? [[...cause, 1]] : names;
    const others = mentioned.filter(([of]) => of !== site);
    /** @type {typeof others} */
    const lacking = [];
    for (const one of others) {
      const [of, at, many] = one;
      const front = fronts.get(of) ?? 0;
      const line = await this.line(text, of, front);
      if (!line?.data(at + many - 1, 1, front)) lacking.push(one);
    }
    return lacking.some(([of]) => sites.has(of)) || (lacking.length ? lacking : others).some(([of, at]) => at < this.#lost.of(of)[1]);
  }

  /** What an author said under a number in a text.
   * @param {number} text @param {number} site @param {Uint8Array} author */
  #lineOf(text, site, author) {
    const key = `${text} ${site} ${hex(author)}`;
    const line = this.#lines.get(key) ?? new Line(text, site, author);
    this.#lines.set(key, line);
    return line;
  }

  /** Who has a number.
   * @param {number} site */
  #holder(site) {
    if (this.#sites.has(site)) return undefined;
    return site === this.#founder.site ? hex(this.#founder.author) : this.#claims.get(site)?.author;
  }
}
