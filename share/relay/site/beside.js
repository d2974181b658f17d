// Writes into a note's margin under another number of this browser's user than a tab's own: what changes a record counts by its number
// alone.
import { hex } from "./bytes.js";
import { KIND, sealed } from "./entry.js";
import { Feed } from "./feed.js";
import { ownOf } from "./held.js";
import { authorOf, sha256 } from "./keys.js";
import { MARGIN, idOf } from "./record.js";
import { Wrong } from "./shared.js";
import { keepUnkept } from "./unkept.js";

const words = (/** @type {number} */ site) => ({
  notHere: `That was written under number ${site}, which isn't yours to write under any more, so it stays as it is. Answer it instead.`,
  inUse: `That was written under number ${site}, which another tab of yours has now. Close that, or do it there.`,
});

/** Has lines be inserted and kept by who has a number, unless another tab types under that; the id of the first.
 * @param {import("./core.js").Core} core @param {import("./store.js").Store} store @param {import("./keys.js").NoteKeys} keys
 * @param {string} id @param {number} site @param {(at: number) => Promise<Uint8Array[]>} makes
 * @param {(words: string) => void} says is told what the user has to know @returns {Promise<string>} */
export async function writtenBeside(core, store, keys, id, site, makes, says) {
  const own = ownOf(await store.note(id)).find((one) => one.site === site);
  if (!own) throw new Wrong("own", words(site).notHere);
  return navigator.locks.request(`vialshoal ${id} ${site}`, { ifAvailable: true }, async (lock) => {
    if (!lock) throw new Wrong("own", words(site).inUse);
    const [feed, author] = [new Feed(core, store, keys, id, site), await authorOf(own.secret)];
    await keepUnkept(store, keys, id, site, says);
    try {
      await feed.next(() => {});
      const { value, sayings } = feed;
      const isLost = feed.facts.numbers().some((one) => one.site === site && one.author !== hex(author.name));
      if (!value || !sayings || isLost) throw new Wrong("own", words(site).notHere);
      feed.hand();
      value.update();
      const at = (await sayings.line(MARGIN, site, value.front(MARGIN, site)))?.length ?? 0;
      for (const line of await makes(at)) value.insert(MARGIN, 0, line);
      await keep(store, keys, id, author, feed.say([MARGIN], { author, site, claims: null }));
      return idOf(site, at);
    } finally {
      feed.close();
    }
  });
}

/** Has what was said be sealed and on the disk.
 * @param {import("./store.js").Store} store @param {import("./keys.js").NoteKeys} keys @param {string} id
 * @param {import("./keys.js").Author} author @param {import("./value.js").Saying[]} said */
async function keep(store, keys, id, author, said) {
  const raws = await Promise.all(said.map(({ body, ...place }) => sealed(keys, KIND.messages, author, place, body)));
  await store.keep(id, await Promise.all(raws.map(async (raw) => ({ hash: hex(await sha256(raw)), raw, isSent: false }))));
}
