// A new note: what it begins with gives its key, and who founds it has a number that nobody can take.
import { hex, join, number, random } from "./bytes.js";
import { opening } from "./entry.js";
import { KEY_BYTES, NoteKeys, authorOf, keyOfFounding, sha256 } from "./keys.js";
import { GREATEST_SITE } from "./rank.js";

/** A note that has nothing but its first entry, which no relay has yet.
 * @param {string} url @param {string} name
 * @returns {Promise<{ note: import("./store.js").Note, entries: import("./store.js").Kept[] }>} */
export async function founded(url, name) {
  const author = await authorOf(random(KEY_BYTES));
  const site = 1 + new DataView(random(4).buffer).getUint32(0) % GREATEST_SITE;
  const founding = join(random(KEY_BYTES), new Uint8Array(32), author.name, number(site, 2));
  const keys = await NoteKeys.of(await keyOfFounding(founding));
  const raw = await opening(keys, founding);
  const note = { ...noteOf(keys, url, name), author: { secret: author.secret, site } };
  return { note, entries: [{ hash: hex(await sha256(raw)), raw, isSent: false }] };
}

/** A note of which nothing is here but its link.
 * @param {NoteKeys} keys @param {string} url @param {string} name @returns {import("./store.js").Note} */
export function noteOf(keys, url, name) {
  return { id: hex(keys.identity), key: keys.key, url, name, place: "", size: 0, heard: 0, bad: 0, author: null };
}
