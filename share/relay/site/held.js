// The numbers of this browser's user in a note: each with the secret that signs for it, and with its claim if that isn't kept yet.
import { hex } from "./bytes.js";
import { authorOf } from "./keys.js";
import { rankOf } from "./rank.js";

/** A number that the store has.
 * @typedef {import("./store.js").Searched | NonNullable<import("./store.js").Note["author"]>} Stored */
/** A number, its author, and its claim if that isn't kept yet.
 * @typedef {{ site: number, author: import("./keys.js").Author, claims: { counter: bigint, rank: Uint8Array } | null }} Held */

/** Return the numbers of this browser's user.
 * @param {import("./store.js").Note | undefined} note @returns {Stored[]} */
export const ownOf = (note) => [note?.author, ...note?.numbers ?? []].flatMap((one) => (one ? [one] : []));

/** Return the authors of numbers, by their names in hex.
 * @param {Stored[]} own @returns {Promise<Map<string, import("./keys.js").Author>>} */
export async function authorsOf(own) {
  const authors = await Promise.all(own.map(({ secret }) => authorOf(secret)));
  return new Map(authors.map((author) => [hex(author.name), author]));
}

/** Return a number with its author. Its claim is there unless the store says that it is kept.
 * @param {import("./keys.js").NoteKeys} keys @param {Stored} one @returns {Promise<Held>} */
export async function heldOf(keys, one) {
  const author = await authorOf(one.secret);
  const counter = "counter" in one && !one.isClaimed ? one.counter : null;
  return { site: one.site, author, claims: counter === null ? null : { counter, rank: await rankOf(keys.identity, author.name, counter) } };
}
