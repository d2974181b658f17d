// A note's link, as docs/NOTES.md has it. Whoever has it reads and writes.
import { Trouble, base64url, equal, join, ofBase64url } from "./bytes.js";
import { KEY_BYTES, sha256 } from "./keys.js";

const CHECK_BYTES = 4;
const SECRET = "[A-Za-z0-9_-]{48}";
const ADDRESS = new RegExp(`^(https?://[^/#@?]+)/(?:\\?[^#]*)?#(.*)$`);
const SPELLED = new RegExp(`^vialshoal:2:s:(${SECRET})(?:@(.+))?$`);
const RENEW = "Whoever has the note runs bin/note renew NAME --form 2 --log";
const LATER = "That link was made by a later version of vialshoal. Reload this page, or ask its relay for it.";
const MISTAKEN = "That link has a mistake in it, or was cut short. Copy it whole, in one line.";

/** @param {Uint8Array} key @param {string} url */
async function secretOf(key, url) {
  return base64url(join(key, (await sha256(join("vialshoal 2 link s", key, url))).slice(0, CHECK_BYTES)));
}

/** The link for editors.
 * @param {Uint8Array} key @param {string} url */
export const linkOf = async (key, url) => `vialshoal:2:s:${await secretOf(key, url)}@${url}`;

/** The link for browsers, which editors take, too; at a page of another server it has the relay's URL besides.
 * @param {Uint8Array} key @param {string} url the relay's @param {string} page where the page is */
export async function addressOf(key, url, page) {
  return page === url ? `${url}/#vialshoal:2:s:${await secretOf(key, url)}` : `${page}/#${await linkOf(key, url)}`;
}

/** What a link says that was given, or an address; what has no URL is of this relay.
 * @param {string} given @param {string} relay */
export async function readLink(given, relay) {
  const address = ADDRESS.exec(given.trim());
  const spelled = (address ? address[2] : given).trim();
  refuseOthers(spelled, relay);
  const found = SPELLED.exec(spelled);
  if (!found) throw new Trouble(spelled.startsWith("vialshoal:2:s:") ? MISTAKEN : "That isn't a note's link. Copy it whole, in one line.");
  const key = ofBase64url(found[1]).slice(0, KEY_BYTES);
  const url = found[2] ?? address?.[1] ?? relay;
  const right = await secretOf(key, url);
  if (!equal(join(right), join(found[1]))) throw new Trouble(MISTAKEN);
  if (!/^https?:/.test(url)) throw new Trouble(`That note is kept at ${url}, where no browser reaches it. ${RENEW} ${relay}`);
  return { key, url };
}

/** @param {string} spelled @param {string} relay */
function refuseOthers(spelled, relay) {
  const [, version, form] = /^vialshoal:([0-9.]+):(\w?)/.exec(spelled) ?? [];
  if (version === "1") throw new Trouble("This note was made by an unreleased version of vialshoal and can't be opened.");
  if (version === "1.1") {
    throw new Trouble(`That note is of the first form, which no page reads. ${RENEW} ${relay}`);
  }
  if (version && version !== "2") throw new Trouble(LATER);
  if (form === "p") throw new Trouble(`That note isn't sealed, and stays on its machine. ${RENEW} ${relay}`);
}
