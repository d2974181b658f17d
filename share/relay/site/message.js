// What goes over a relay's WebSocket, both ways, byte by byte as docs/RELAY.md has it. Whoever sent it may be anyone.
import { Trouble, join, number, numberAt } from "./bytes.js";

export const [SOCKET_PATH, SUBPROTOCOL] = ["/relay/socket", "vialshoal-relay-1"];
export const [PROOF, WELCOME, READ, APPEND, PRESENCE, REFUSED] = [1, 2, 3, 4, 5, 6];
// A number that no request has.
export const UNASKED = 0;
export const WHY = { full: 1, rate: 2, new: 3, away: 4, lost: 5, wrong: 6 };
// The most bytes of entries that are appended by one message, and that a page has.
export const [MOST_APPENDED, MOST_OF_PAGE] = [2 ** 17, 2 ** 20];
const [NO_ENTRY, MOST_ENTRY, MOST_PRESENCE, MOST_WORDS, CHALLENGE_BYTES] = [2 ** 32 - 1, 16_384, 256, 300, 32];
const PLACE = /^[!-~]{0,64}$/;

/** What isn't a message of a relay's. */
export class Misspelled extends Trouble {}

/** An entry in a log, after which a place stands; none where the relay has lost it.
 * @typedef {{ place: string, raw: Uint8Array | null }} InLog */
/** @typedef {{ id: number, atEnd: boolean, size: number, after: string, entries: InLog[] }} Page */

/** @param {import("./keys.js").NoteKeys} keys @param {Uint8Array} signature @param {string} origin */
export const proofMessage = (keys, signature, origin) => join([PROOF], keys.identity, keys.itself.name, signature, origin);

/** @param {number} id @param {number} most @param {string} after */
export const readMessage = (id, most, after) => join([READ], number(id, 4), number(most, 4), [after.length], after);

/** @param {number} id @param {Uint8Array[]} raws */
export const appendMessage = (id, raws) => join([APPEND], number(id, 4), ...raws.flatMap((raw) => [number(raw.length, 4), raw]));

/** Entries in parts that are appended by one message each.
 * @param {Uint8Array[]} raws */
export function inMessages(raws) {
  /** @type {Uint8Array[][]} */
  const parts = [];
  let room = 0;
  for (const raw of raws) {
    room -= raw.length + 4;
    if (room < 0) {
      parts.push([]);
      room = MOST_APPENDED - raw.length - 4;
    }
    parts[parts.length - 1].push(raw);
  }
  return parts;
}

/** Reads a message from its front; what is cut short is misspelled. */
class Reader {
  #data;
  #at = 1;

  /** @param {Uint8Array} data */
  constructor(data) {
    this.#data = data;
  }

  /** @param {number} size */
  bytes(size) {
    if (this.#at + size > this.#data.length) throw new Misspelled("A message is cut short.");
    this.#at += size;
    return this.#data.slice(this.#at - size, this.#at);
  }

  /** @param {number} size */
  number(size) {
    return numberAt(this.bytes(size), 0, size);
  }

  place() {
    const place = String.fromCharCode(...this.bytes(this.number(1)));
    if (!PLACE.test(place)) throw new Misspelled("A place isn't spelled as one.");
    return place;
  }

  hasMore() {
    return this.#at < this.#data.length;
  }
}

/** @param {Uint8Array} presence */
export const presenceMessage = (presence) => join([PRESENCE], presence);

/** The random bytes with which a relay begins.
 * @param {Uint8Array} data */
export function challengeOf(data) {
  if (data.length !== 1 + CHALLENGE_BYTES || data[0] !== PROOF) throw new Misspelled("That is no challenge.");
  return data.slice(1);
}

/** Whether a relay lets one in.
 * @param {Uint8Array} data */
export const isWelcome = (data) => data.length === 2 && data[0] === WELCOME && data[1] === 1;

/** @param {Uint8Array} data @returns {Page} */
export function pageOf(data) {
  const reader = new Reader(data);
  const [id, flags] = [reader.number(4), reader.number(1)];
  const [high, low] = [reader.number(4), reader.number(4)];
  if (flags > 1 || high >= 2 ** 21) throw new Misspelled("A page isn't spelled as one.");
  const after = reader.place();
  /** @type {InLog[]} */
  const entries = [];
  while (reader.hasMore()) {
    const [place, size] = [reader.place(), reader.number(4)];
    if (!place) throw new Misspelled("An entry has no place.");
    const raw = size === NO_ENTRY ? null : reader.bytes(size);
    entries.push({ place, raw: raw && raw.length <= MOST_ENTRY ? raw : null });
  }
  if (new Set([after, ...entries.map(({ place }) => place)]).size !== entries.length + 1) {
    throw new Misspelled("A place stands twice.");
  }
  return { id, atEnd: flags === 1, size: high * 2 ** 32 + low, after, entries };
}

/** The number of the request that was done.
 * @param {Uint8Array} data */
export function keptOf(data) {
  const reader = new Reader(data);
  const id = reader.number(4);
  if (reader.hasMore()) throw new Misspelled("An answer is too long.");
  return id;
}

/** @param {Uint8Array} data */
export function refusalOf(data) {
  const reader = new Reader(data);
  const [id, why] = [reader.number(4), reader.number(1)];
  if (!Object.values(WHY).includes(why)) throw new Misspelled("A refusal isn't one that there is.");
  const words = new TextDecoder().decode(data.subarray(6, 6 + MOST_WORDS));
  // eslint-disable-next-line no-control-regex
  return { id, why, words: words.replace(/[\0-\x1f\x7f-\x9f\u061c\u200e\u200f\u2028-\u202e\u2066-\u2069]/g, "") };
}

/** @param {Uint8Array} data */
export function presenceOf(data) {
  if (data.length < 2 || data.length > 1 + MOST_PRESENCE) throw new Misspelled("Presence isn't spelled as that.");
  return data.slice(1);
}
