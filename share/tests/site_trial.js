// Does with the modules of a relay's page, beside which it is put in Node and in a browser, what is asked.
import * as bytes from './bytes.js';
import { operationsOf } from './chunk.js';
import * as entry from './entry.js';
import { Facts } from './facts.js';
import { Feed } from './feed.js';
import { Followed } from './followed.js';
import { History, messagesOf } from './history.js';
import * as keys from './keys.js';
import * as link from './link.js';
import { Marginal } from './marginal.js';
import * as message from './message.js';
import { Own } from './own.js';
import { keepUnkept, sitesUnkept, writeUnkept } from './unkept.js';
import { passagesOf } from './passages.js';
import * as presence from './presence.js';
import { numberOfRank, rankOf, searched } from './rank.js';
import { idOf, readLine, sumOf } from './record.js';
import { RelayLine } from './relay.js';
import { Store } from './store.js';
import { linesOf } from './written.js';

const { hex } = bytes;

/** @param {string} digits */
const ofHex = (digits) => Uint8Array.from(digits.match(/../g) ?? [], (two) => parseInt(two, 16));

/** What bytes become in JSON, and numbers that it doesn't have.
 * @param {string} _ @param {unknown} value */
const plain = (_, value) => {
  if (value instanceof Uint8Array) return hex(value);
  return typeof value === 'bigint' ? String(value) : value;
};

/** An answer, or why there is none.
 * @param {() => Promise<unknown>} work */
async function orWhy(work) {
  try {
    return await work();
  } catch (why) {
    if (why instanceof bytes.Trouble) return { why: why.message };
    throw why;
  }
}

/** Waits until something is so.
 * @param {() => unknown} condition */
async function eventually(condition) {
  while (!condition()) await new Promise((done) => { setTimeout(done, 20); });
}

const does = {
  async keys({ key }) {
    const { itself, identity } = await keys.NoteKeys.of(ofHex(key));
    return { append: itself.secret, public: itself.name, identity };
  },
  async founding({ founding }) {
    return keys.keyOfFounding(ofHex(founding));
  },
  async author({ secret }) {
    return (await keys.authorOf(ofHex(secret))).name;
  },
  async proof({ key, challenge, origin }) {
    return (await keys.NoteKeys.of(ofHex(key))).proof(ofHex(challenge), origin);
  },
  async isSigned({ data, signature, name }) {
    return keys.isSigned(ofHex(data), ofHex(signature), ofHex(name));
  },
  async imported({ data, signed }) {
    const { importKey } = crypto.subtle;
    let many = 0;
    crypto.subtle.importKey = function (...given) {
      many += 1;
      return importKey.apply(this, given);
    };
    try {
      const are = await Promise.all(signed.map(({ signature, name }) => keys.isSigned(ofHex(data), ofHex(signature), ofHex(name))));
      return { are, many };
    } finally {
      crypto.subtle.importKey = importKey;
    }
  },
  async kept({ calls }) {
    const store = await Store.open(() => {});
    const { getKey } = IDBIndex.prototype;
    let [open, atOnce] = [0, 0];
    IDBIndex.prototype.getKey = function (...given) {
      const request = getKey.apply(this, given);
      [open, atOnce] = [open + 1, Math.max(atOnce, open + 1)];
      request.addEventListener('success', () => { open -= 1; });
      return request;
    };
    await store.add(/** @type {any} */ ({ id: 'one' }));
    const many = [];
    for (const call of calls) many.push(await store.keep('one', call.map(([hash, isSent]) => ({ hash, raw: bytes.join(hash), isSent }))));
    IDBIndex.prototype.getKey = getKey;
    const { entries } = await store.entries('one');
    return { many, atOnce, entries: entries.map(({ hash, isSent }) => [hash, isSent]) };
  },
  async opened({ key, raws, bits }) {
    const note = await keys.NoteKeys.of(ofHex(key));
    return Promise.all(raws.map((raw) => orWhy(() => entry.opened(note, ofHex(raw), bits))));
  },
  async recovered({ key, numbers, said, damaged = [] }) {
    globalThis.localStorage = new Beside();
    const note = { author: null, numbers: numbers.map(({ secret, counter, ...one }) => (
      { ...one, secret: ofHex(secret), counter: BigInt(counter) })) };
    const raws = [];
    const store = {
      note: async () => note,
      async keep(_, entries, changes) {
        raws.push(...entries.map(({ raw }) => raw));
        Object.assign(note, changes(note));
      },
    };
    const ofKey = await keys.NoteKeys.of(ofHex(key));
    for (const { words, before, body, ...place } of said) {
      const saying = { ...place, before: ofHex(before), body: ofHex(body), author: new Uint8Array(32) };
      writeUnkept('note', { saying, words: words.map((one) => ({ ...one, before: ofHex(one.before) })) });
    }
    for (const name of damaged) localStorage.setItem(`vialshoal unkept note ${name}`, '{"count":');
    const [found, told] = [[], []];
    for (const site of [...sitesUnkept('note'), ...sitesUnkept('note')]) {
      found.push(await keepUnkept(/** @type {any} */ (store), ofKey, 'note', site, (words) => told.push(words)));
    }
    const aside = Object.keys(localStorage);
    delete globalThis.localStorage;
    return { raws, found, claimed: note.numbers.filter(({ isClaimed }) => isClaimed).map(({ site }) => site), aside, told };
  },
  /** Take a number whose unkept sayings can't be kept at first. Return why that fails, the locks that are held then, and the number that is
   * taken at the second try. */
  async takenTwice({ key, number: { secret, counter, ...one } }) {
    globalThis.localStorage = new Beside();
    const [held, ofKey] = [locks(), await keys.NoteKeys.of(ofHex(key))];
    const note = { author: null, numbers: [{ ...one, isClaimed: true, secret: ofHex(secret), counter: BigInt(counter) }] };
    let isFull = true;
    const store = {
      note: async () => note,
      async keep() {
        if (isFull) throw new Error('There is no room.');
      },
    };
    const own = new Own(/** @type {any} */ (store), ofKey, 'note', { kept() {}, failed() {}, recovered() {}, says() {} });
    const [before, author] = [new Uint8Array(32), new Uint8Array(32)];
    const saying = { site: one.site, text: 1, first: 1, count: 1, before, body: new Uint8Array(2), author };
    // It is written beside the database by a tab that ends while this one takes its number.
    const request = navigator.locks.request;
    navigator.locks.request = (...words) => {
      writeUnkept('note', { saying, words: [] });
      navigator.locks.request = request;
      return request(...words);
    };
    const why = await own.take(new Set()).catch(({ message }) => message);
    const heldThen = [...held];
    isFull = false;
    const site = await own.take(new Set());
    delete globalThis.localStorage;
    return { why, held: heldThen, site };
  },
  async sealed({ key, kind, secret, place, body }) {
    const note = await keys.NoteKeys.of(ofHex(key));
    const where = { ...place, before: ofHex(place.before) };
    return entry.sealed(note, kind, await keys.authorOf(ofHex(secret)), where, ofHex(body));
  },
  async claim({ key, secret, counter, site }) {
    const note = await keys.NoteKeys.of(ofHex(key));
    return entry.claim(note, await keys.authorOf(ofHex(secret)), { counter: BigInt(counter), site });
  },
  async facts({ key, raws }) {
    const facts = new Facts(await keys.NoteKeys.of(ofHex(key)));
    for (const raw of raws) await facts.add(ofHex(raw));
    await facts.base.look();
    const { entries, founder, isCopy, renewedBy } = facts;
    return { entries, founder, isCopy, renewedBy, numbers: facts.numbers() };
  },
  async handed({ key, raws, refused }) {
    const entries = raws.map((raw) => ({ raw: ofHex(raw) }));
    const store = { entriesAfter: async () => ({ entries, last: raws.length }) };
    const feed = new Feed(/** @type {any} */ (null), /** @type {any} */ (store), await keys.NoteKeys.of(ofHex(key)), '', 0);
    const [handed, said] = [[], []];
    feed.value = /** @type {any} */ ({
      claim() {},
      add({ author, first }) {
        handed.push([author, first]);
        if (handed.length === refused) throw new bytes.Trouble('There is no memory.');
        return true;
      },
    });
    feed.sayings = /** @type {any} */ ({ claim() {}, anew() {}, copies: { add() {} }, add: ({ author, first }) => { said.push([author, first]); } });
    await feed.next(() => {});
    const why = await orWhy(async () => feed.hand());
    feed.hand();
    return { why, handed, said };
  },
  async history({ chunks, counting }) {
    const history = new History(new Map(counting));
    for (const chunk of chunks) history.add(operationsOf(ofHex(chunk)));
    return { length: history.length, steps: history.steps };
  },
  async messages({ body, ...head }) {
    return messagesOf(/** @type {any} */ ({ kind: entry.KIND.messages, body: ofHex(body), ...head })).length;
  },
  async passages({ chunk, hides }) {
    return passagesOf(operationsOf(ofHex(chunk)), hides);
  },
  async own({ key, numbers, said }) {
    return keptOf(await keys.NoteKeys.of(ofHex(key)), numbers, said);
  },
  async keptAsItCloses({ key }) {
    const [note, heard, soon] = [await keys.NoteKeys.of(ofHex(key)), [], () => new Promise((done) => { setTimeout(done, 50); })];
    // Another tab has the line.
    Object.defineProperty(globalThis, 'navigator', { value: { locks: { request: () => new Promise(() => {}) } }, configurable: true });
    const other = new BroadcastChannel(`vialshoal ${hex(note.identity)}`);
    other.onmessage = ({ data }) => heard.push(data);
    const store = { you: async () => ({ name: '', colour: '#000000' }), note: async () => ({}) };
    const followed = new Followed(/** @type {any} */ (store), note, '', () => {}, () => {});
    let ends = () => {};
    followed.close(new Promise((done) => { ends = done; }));
    await soon();
    followed.kept();
    ends();
    await soon();
    // Nobody hears this any more.
    followed.kept();
    await soon();
    other.close();
    return heard.filter((what) => what === 'kept').length;
  },
  async records({ lines }) {
    return Promise.all(lines.map(async (line) => readLine(ofHex(line), await sumOf(ofHex(line)))));
  },
  async written({ record, site, at }) {
    return orWhy(() => linesOf(record, site, at));
  },
  async margin({ inserted }) {
    const margin = new Marginal();
    for (const { site, at, stamp, data } of inserted) {
      const record = readLine(ofHex(data), await sumOf(ofHex(data)));
      if (record) margin.add({ id: idOf(site, at), site, stamp, record });
    }
    return margin.threads().map((id) => margin.thread(id));
  },
  async presence({ key, data }) {
    const note = await keys.NoteKeys.of(ofHex(key));
    return presence.sealedPresence(note, ofHex(data));
  },
  async present({ key, raws }) {
    const note = await keys.NoteKeys.of(ofHex(key));
    return Promise.all(raws.map((raw) => presence.openedPresence(note, ofHex(raw))));
  },
  async ofEditor({ engine, editor, ...rest }) {
    return presence.ofEditor({ engine: ofHex(engine), editor: ofHex(editor), ...rest });
  },
  async ofEngine({ engine, ...rest }) {
    return presence.ofEngine({ engine: ofHex(engine), ...rest });
  },
  async clockSetBack({ key, raws }) {
    const [note, said, today] = [await keys.NoteKeys.of(ofHex(key)), [], Date.now];
    const one = new presence.Presence(note, (raw) => said.push(raw), () => {});
    one.up();
    for (const raw of raws) one.heard(ofHex(raw));
    // It has said again to who has come that it is on.
    await eventually(() => one.people().length && said.length >= 4);
    const people = one.people();
    Date.now = () => today() - 3_600_000;
    const many = said.length;
    await eventually(() => said.length > many);
    Date.now = today;
    await one.leave();
    return people;
  },
  async readPresence({ data }) {
    return [presence.readEditor(ofHex(data)), presence.readEngine(ofHex(data))];
  },
  async rank({ note, author, counter, bits }) {
    const rank = await rankOf(ofHex(note), ofHex(author), BigInt(counter));
    return { rank, site: numberOfRank(rank, bits) };
  },
  async searched({ note, author, taken, begin, bits }) {
    return searched(ofHex(note), ofHex(author), new Set(taken), BigInt(begin), bits);
  },
  async link({ key, url, page }) {
    return { link: await link.linkOf(ofHex(key), url), page: await link.addressOf(ofHex(key), url, page ?? url) };
  },
  async readLink({ given, relay }) {
    return orWhy(() => link.readLink(given, relay));
  },
  async message({ name, data }) {
    return orWhy(async () => message[name](ofHex(data)));
  },
  async spelled({ name, words }) {
    return message[name](...words.map((word) => (Array.isArray(word) ? word.map(ofHex) : word)));
  },
  async line({ key, url, appended }, heard) {
    return atRelay(await keys.NoteKeys.of(ofHex(key)), url, appended.map(ofHex), heard);
  },
};

/** Which entries are kept of what is said under numbers, each of which is left while the disk is slow; how many numbers nobody else can have
 * until then, and after that; and why nothing is said then.
 * @param {keys.NoteKeys} note @param {any[]} numbers @param {any[][]} said */
async function keptOf(note, numbers, said) {
  const locked = locks();
  const held = { author: null, numbers: numbers.map(({ secret, counter, ...one }) => ({ ...one, secret: ofHex(secret), counter: BigInt(counter) })) };
  const raws = [];
  let goesOn = () => {};
  const slow = new Promise((done) => { goesOn = done; });
  const store = {
    note: async () => held,
    async keep(_, entries, changes) {
      await slow;
      raws.push(...entries.map(({ raw }) => raw));
      Object.assign(held, changes(held));
    },
  };
  const own = new Own(/** @type {any} */ (store), note, 'note', { kept() {}, failed() {} });
  const says = (places) => places.forEach(({ before, body, ...place }) => (
    own.say({ ...place, before: ofHex(before), body: ofHex(body), author: new Uint8Array(32) }, 1)));
  for (const places of said) {
    await own.take(new Set());
    says(places);
    own.leave();
  }
  own.close();
  const soon = () => new Promise((done) => { setTimeout(done); });
  await soon();
  const until = locked.size;
  goesOn();
  await own.settled();
  await soon();
  let why = '';
  try {
    says(said[0]);
  } catch (wrong) {
    why = wrong.message;
  }
  return { raws, why, claimed: held.numbers.filter(({ isClaimed }) => isClaimed).length, locked: [until, locked.size] };
}

/** A localStorage for Node. */
class Beside {
  setItem(name, value) { this[name] = value; }

  getItem(name) { return this[name] ?? null; }

  removeItem(name) { delete this[name]; }
}

/** Has nobody else hold a lock, and nothing but these: a Node of before has none. */
function locks() {
  const held = new Set();
  const request = async (name, _, work) => {
    if (held.has(name)) return work(null);
    held.add(name);
    await work({ name });
    return held.delete(name);
  };
  Object.defineProperty(globalThis, 'navigator', { value: { locks: { request } }, configurable: true });
  return held;
}

/** What comes of a line: how often it was up, and what was read after entries were appended, over a break of the connection.
 * @param {keys.NoteKeys} note @param {string} url @param {Uint8Array[]} raws @param {(what: string) => void} heard */
function atRelay(note, url, raws, heard) {
  const told = { ups: 0, downs: 0, came: 0 };
  return new Promise((done) => {
    const line = new RelayLine(note, url, {
      async up() {
        told.ups += 1;
        for (const part of message.inMessages(told.ups === 1 ? raws : [])) await line.append(part);
        if (told.ups === 1) {
          heard('appended');
          return;
        }
        const page = await line.read('', message.MOST_OF_PAGE);
        line.close();
        done({ ...told, page });
      },
      down() {
        told.downs += 1;
      },
      came() {
        told.came += 1;
      },
      said() {},
      told() {},
    });
  });
}

/** What is asked, answered in JSON; what comes before the answer is heard.
 * @param {{ do: string }} asked @param {(what: string) => void} heard */
export const answered = async (asked, heard = () => {}) => JSON.stringify(await does[asked.do](asked, heard), plain);

globalThis.answered = answered;
