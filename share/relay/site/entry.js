// Entries of a sealed note of the second form, made and opened byte by byte as docs/NOTES.md has them. What a chunk of messages has in it
// and what hashes messages have is left to the note's value.
import { Trouble, equal, isZeros, join, number, numberAt } from "./bytes.js";
import { IDENTITY_BYTES, NONCE_BYTES, POINT_BYTES, SIGNED_BYTES, boxed, isSigned, keyOfFounding, signed, unboxed } from "./keys.js";
import { GREATEST_SITE, ZERO_BITS, numberOfRank, rankOf } from "./rank.js";

/** @typedef {import("./keys.js").NoteKeys} NoteKeys */
/** @typedef {import("./keys.js").Author} Author */
/** What the head of an entry says.
 * @typedef {{ kind: number, author: Uint8Array, site: number, text: number, first: number, count: number, before: Uint8Array }} Head */
/** @typedef {Head & { body: Uint8Array }} Entry */

export const KIND = { opening: 1, claim: 2, base: 3, messages: 4, anew: 5, copies: 6, renewed: 7 };
const [SEALED, HEAD_BYTES, BOX_TAG_BYTES, MOST_BYTES, GREATEST_TEXT] = [4, 91, 16, 16_384, 16];
const LEAST_BYTES = HEAD_BYTES + NONCE_BYTES + BOX_TAG_BYTES + SIGNED_BYTES;
const [HASH_BYTES, FOUNDING_BYTES, LONGEST_NAME, GREATEST_SEQ, LONGEST_VARINT] = [32, 98, 200, 2 ** 32 - 1, 7];
const OF_A_TEXT = [KIND.base, KIND.messages, KIND.anew, KIND.copies];

/** Bytes that are no entry of the note, and why, in words that follow "An entry". */
export class Bad extends Trouble {}

/** @param {boolean} is @param {string} why */
function refuse(is, why) {
  if (is) throw new Bad(why);
}

/** A new entry.
 * @param {NoteKeys} keys @param {number} kind @param {Author} author
 * @param {{ site?: number, text?: number, first?: number, count?: number, before?: Uint8Array }} place @param {Uint8Array} body */
export async function sealed(keys, kind, author, { site = 0, text = 0, first = 0, count = 0, before = new Uint8Array(HASH_BYTES) }, body) {
  const head = join([SEALED, kind], keys.identity, author.name, number(site, 2), [text], number(first, 4), number(count, 2), before);
  const nonce = await keys.nonceOf(join(head, body));
  const unsigned = join(head, nonce, await boxed(keys.seal, nonce, body, head));
  return join(unsigned, await signed(author, unsigned));
}

/** A note's first entry.
 * @param {NoteKeys} keys @param {Uint8Array} founding */
export const opening = (keys, founding) => sealed(keys, KIND.opening, keys.itself, {}, founding);

/** @param {NoteKeys} keys @param {Author} author @param {{ counter: bigint, site: number }} found */
export function claim(keys, author, { counter, site }) {
  return sealed(keys, KIND.claim, author, { site, before: join(new Uint8Array(24), number(counter, 8)) }, new Uint8Array(0));
}

/** What stands in the open in an entry that was found right.
 * @param {Uint8Array} raw @returns {Head} */
export function headOf(raw) {
  const at = 2 + IDENTITY_BYTES + POINT_BYTES;
  return { kind: raw[1], author: raw.slice(2 + IDENTITY_BYTES, at), site: numberAt(raw, at, 2), text: raw[at + 2],
    first: numberAt(raw, at + 3, 4), count: numberAt(raw, at + 7, 2), before: raw.slice(at + 9, HEAD_BYTES) };
}

/** The counter of a claim.
 * @param {Head} head */
export const counterOf = ({ before }) => new DataView(before.buffer, before.byteOffset + 24).getBigUint64(0);

/** What bytes say that are an entry of the note; a Bad where they are none. Of an unknown kind it is a later version's.
 * @param {NoteKeys} keys @param {Uint8Array} raw @param {number} zeroBits @returns {Promise<Entry>} */
export async function opened(keys, raw, zeroBits = ZERO_BITS) {
  refuse(raw.length < LEAST_BYTES || raw.length > MOST_BYTES || raw[0] !== SEALED, "isn't spelled as one");
  refuse(!equal(raw.subarray(2, 2 + IDENTITY_BYTES), keys.identity), "is of another note");
  const [head, nonce] = [raw.slice(0, HEAD_BYTES), raw.slice(HEAD_BYTES, HEAD_BYTES + NONCE_BYTES)];
  const body = await unboxed(keys.seal, nonce, raw.slice(HEAD_BYTES + NONCE_BYTES, -SIGNED_BYTES), head);
  if (!body || !equal(nonce, await keys.nonceOf(join(head, body)))) throw new Bad("isn't sealed with this note's key");
  const one = { ...headOf(raw), body };
  refuse(!await isSigned(raw.slice(0, -SIGNED_BYTES), raw.slice(-SIGNED_BYTES), one.author), "isn't signed by its author");
  await check(keys, one, zeroBits);
  return one;
}

/** What an entry says that was found right, and that this browser has kept since.
 * @param {NoteKeys} keys @param {Uint8Array} raw @returns {Promise<Entry>} */
export async function openedKept(keys, raw) {
  const [head, nonce] = [raw.slice(0, HEAD_BYTES), raw.slice(HEAD_BYTES, HEAD_BYTES + NONCE_BYTES)];
  const body = await unboxed(keys.seal, nonce, raw.slice(HEAD_BYTES + NONCE_BYTES, -SIGNED_BYTES), head);
  if (!body) throw new Trouble("What this browser keeps of the note was changed. Forget the note here, and open its link again.");
  return { ...headOf(raw), body };
}

/** Raises Bad where an entry says what can't be.
 * @param {NoteKeys} keys @param {Entry} one @param {number} zeroBits */
async function check(keys, one, zeroBits) {
  const { kind, author, site, text, first, count, before, body } = one;
  if (kind === KIND.opening) {
    refuse(!equal(author, keys.itself.name) || Boolean(site || text || first || count) || !isZeros(before),
      "is an opening with more in its head than an opening has");
    refuse(body.length !== FOUNDING_BYTES || !equal(await keyOfFounding(body), keys.key), "opens another note");
  }
  if (kind === KIND.opening || !Object.values(KIND).includes(kind)) return;
  refuse(site < 1 || site > GREATEST_SITE, "is of a site that can't be");
  refuse(text > GREATEST_TEXT || (text > 0) !== OF_A_TEXT.includes(kind), "is of a text that can't be");
  if (kind === KIND.messages || kind === KIND.base) {
    checkMessages(keys, one);
    return;
  }
  refuse(first > 0 || count > 0, "counts messages where it has none");
  if (kind === KIND.claim) {
    refuse(body.length > 0 || !isZeros(before.subarray(0, 24)), "is a claim with more in it than a claim has");
    refuse(numberOfRank(await rankOf(keys.identity, author, counterOf(one)), zeroBits) !== site, "claims a number that wasn't searched for");
  } else if (kind === KIND.anew) {
    refuse(body.length > 0 || isZeros(before), "says of nothing that it was made anew, or has more in it");
  } else if (kind === KIND.copies) {
    checkCopies(one);
  } else {
    refuse(!isZeros(before) || body.length > LONGEST_NAME, "says of a renewed note what can't be");
  }
}

/** @param {NoteKeys} keys @param {Entry} one */
function checkMessages(keys, { kind, author, first, count, before, body }) {
  refuse(!first || !count, "has no messages");
  if (kind === KIND.base) {
    refuse(!equal(author, keys.itself.name), "is no base by the note itself");
    return;
  }
  refuse((first === 1) !== isZeros(before), "begins where something is before it, or goes on where nothing is");
  const many = numberAt(body, 0, 2);
  refuse(body.length < 2 || body.length < 2 + many * (2 + HASH_BYTES), "has messages that are cut short");
  const indices = Array.from({ length: many }, (_, at) => numberAt(body, 2 + at * (2 + HASH_BYTES), 2));
  refuse(indices.some((index, at) => index >= count || (at > 0 && index <= indices[at - 1])),
    "doesn't say in order which messages build on something");
}

/** @param {Entry} one */
function checkCopies({ author, site, body }) {
  const found = copiedIn(body);
  if (!found) throw new Bad("has bytes that say nothing of copies");
  refuse(found.whose.some((who) => who.site < 1 || who.site > GREATEST_SITE), "says of copies what can't be");
  refuse(!found.whose.some((who) => who.site === site && equal(who.author, author)), "speaks of copies of others");
}

/** What is said of copies, or nothing where bytes don't say that: whose the messages are, and the copies; what names the last of these; and of
 * each stretch the seq of the first message, that of its copy, and how many they are.
 * @param {Uint8Array} body */
export function copiedIn(body) {
  const [sizeOfOne, begin] = [POINT_BYTES + 2, 2 * (POINT_BYTES + 2) + HASH_BYTES];
  const numbers = body.length < begin ? null : varintsIn(body.subarray(begin));
  if (!numbers?.length || numbers.length % 3 > 0) return null;
  const stretches = Array.from({ length: numbers.length / 3 }, (_, at) => numbers.slice(3 * at, 3 * at + 3));
  if (stretches.some(([from, to, many]) => !from || !many || Math.max(from, to) + many - 1 > GREATEST_SEQ)) return null;
  const whose = [0, sizeOfOne].map((at) => ({ author: body.subarray(at, at + POINT_BYTES), site: numberAt(body, at + POINT_BYTES, 2) }));
  return { whose, last: body.subarray(begin - HASH_BYTES, begin), stretches };
}

/** The numbers that varints spell, or nothing where bytes are none.
 * @param {Uint8Array} bytes */
function varintsIn(bytes) {
  const numbers = [];
  for (let at = 0; at < bytes.length; at += 1) {
    let [value, size] = [0, 0];
    for (; bytes[at] >= 128 && size < LONGEST_VARINT - 1; at += 1, size += 1) value += (bytes[at] % 128) * 128 ** size;
    if (!(bytes[at] < 128) || (size > 0 && bytes[at] === 0)) return null;
    numbers.push(value + bytes[at] * 128 ** size);
  }
  return numbers;
}
