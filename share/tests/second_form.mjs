// Makes the vectors of the second form of notes: written from docs/NOTES.md and docs/FORMATS.md alone, by WebCrypto alone.
// `node share/tests/second_form.mjs` prints them as JSON; share/tests/data/second_form.json has what it printed.
import { webcrypto } from 'node:crypto';

const { subtle } = webcrypto;
const text = new TextEncoder();
const LOOKS = join([0x10], 'Oberon10.Scn.Fnt', [1, 0]);
const ZEROS = new Uint8Array(32);
const KINDS = { opening: 1, claim: 2, base: 3, messages: 4, anew: 5, copies: 6, renewed: 7 };

/** @param {(Uint8Array | number[] | string)[]} parts */
function join(...parts) {
  const found = parts.flatMap((part) => [...(typeof part === 'string' ? text.encode(part) : part)]);
  return new Uint8Array(found);
}

/** A number in so many bytes.
 * @param {number} value @param {number} size */
function number(value, size) {
  return Array.from({ length: size }, (_, at) => Math.floor(value / 2 ** (8 * (size - 1 - at))) % 256);
}

/** @param {Uint8Array | number[]} bytes */
const hex = (bytes) => Buffer.from(bytes).toString('hex');

/** 32 bytes that come of a word.
 * @param {string} word */
const chosen = async (word) => sha256(join('chosen for a vector: ', word));

/** @param {Uint8Array} data */
const sha256 = async (data) => new Uint8Array(await subtle.digest('SHA-256', data));

/** @param {Uint8Array} key @param {Uint8Array} data */
async function hmac(key, data) {
  const imported = await subtle.importKey('raw', key, { name: 'HMAC', hash: 'SHA-256' }, false, ['sign']);
  return new Uint8Array(await subtle.sign('HMAC', imported, data));
}

/** @param {Uint8Array} key @param {string} use */
async function derived(key, use) {
  const imported = await subtle.importKey('raw', key, 'HKDF', false, ['deriveBits']);
  const how = { name: 'HKDF', hash: 'SHA-256', salt: new Uint8Array(0), info: text.encode(`vialshoal 2 ${use}`) };
  return new Uint8Array(await subtle.deriveBits(how, imported, 256));
}

/** The pair of a secret of Ed25519.
 * @param {Uint8Array} secret */
async function pair(secret) {
  const spelled = join(Buffer.from('302e020100300506032b657004220420', 'hex'), secret);
  const key = await subtle.importKey('pkcs8', spelled, 'Ed25519', true, ['sign']);
  const { x } = await subtle.exportKey('jwk', key);
  return { key, secret, name: new Uint8Array(Buffer.from(x ?? '', 'base64url')) };
}

/** @param {{ key: webcrypto.CryptoKey }} author @param {Uint8Array} data */
const signature = async (author, data) => new Uint8Array(await subtle.sign('Ed25519', author.key, data));

/** @param {Uint8Array} key @param {Uint8Array} nonce @param {Uint8Array} data @param {Uint8Array} beside */
async function boxed(key, nonce, data, beside) {
  const imported = await subtle.importKey('raw', key, 'AES-GCM', false, ['encrypt']);
  return new Uint8Array(await subtle.encrypt({ name: 'AES-GCM', iv: nonce, additionalData: beside }, imported, data));
}

// Messages and chunks.

/** @typedef {{ kind: number, text: number, site: number, seq: number, stamp: number, ranges: number[][], at: number,
 *   data: Uint8Array, looks: Uint8Array }} Message */

/** @param {number[]} place of the text, site, seq and stamp @param {number[] | null} cause @param {number} at
 * @param {string} data @returns {Message} */
function inserting([of, site, seq, stamp], cause, at, data) {
  return { kind: 1, text: of, site, seq, stamp, ranges: cause ? [[...cause, 1]] : [], at, data: text.encode(data), looks: LOOKS };
}

/** @param {number} kind @param {number[]} place @param {number[][]} ranges @param {number[]} looks @returns {Message} */
function naming(kind, [of, site, seq, stamp], ranges, looks = []) {
  return { kind, text: of, site, seq, stamp, ranges, at: 0, data: new Uint8Array(0), looks: new Uint8Array(looks) };
}

/** @param {Message} one */
function spelled(one) {
  const begin = join('OT', [one.kind === 4 ? 2 : 1, one.kind], number(one.text, 2), number(one.site, 2), number(one.seq, 4),
    number(one.stamp, 8));
  if (one.kind === 1) {
    const [site, offset] = one.ranges[0] ?? [0, 0];
    return join(begin, number(site, 2), number(offset, 4), number(one.at, 4), one.looks, number(one.data.length, 2), one.data);
  }
  const ranges = one.ranges.flatMap(([site, at, length]) => [...number(site, 2), ...number(at, 4), ...number(length, 4)]);
  return join(begin, one.looks, number(one.ranges.length, 2), ranges);
}

/** @param {number} value @returns {number[]} */
const varint = (value) => (value < 128 ? [value] : [value % 128 + 128, ...varint(Math.floor(value / 128))]);

/** @param {Message[]} messages @param {number} length of the site's file before them, where they insert nothing */
function chunk(messages, length = 0) {
  const [first] = messages;
  const one = { stamp: first.stamp, looks: LOOKS, caret: /** @type {number[] | null} */ (null) };
  const begin = messages.find(({ kind }) => kind === 1)?.at ?? length;
  let data = join('OTC1', number(first.text, 2), [15], ...[first.site, first.seq, first.stamp, begin].map(varint));
  for (const message of messages) {
    const [site, at] = message.ranges[0] ?? [0, 0];
    data = join(data, message.stamp > one.stamp ? [2, ...varint(message.stamp - one.stamp)] : [], does(message, one));
    one.stamp = message.stamp + 1;
    if (message.kind === 1) {
      one.looks = message.looks;
      one.caret = [message.site, message.at + message.data.length - 1];
    } else if (message.kind === 2) {
      one.caret = at ? [site, at - 1] : null;
    }
  }
  return data;
}

/** @param {Message} message @param {{ looks: Uint8Array, caret: number[] | null }} one */
function does(message, one) {
  const [site, at, length] = message.ranges[0] ?? [0, 0, 0];
  if (message.kind === 1) {
    const looks = hex(message.looks) === hex(one.looks) ? [] : [3, ...message.looks];
    return join(looks, placed(site ? [site, at] : null, one.caret), inserted(message.data));
  }
  if (message.kind === 2 && message.ranges.length === 1 && length === 1) {
    return join(placed([site, at], one.caret), [8]);
  }
  return join([{ 2: 7, 3: 0x0b, 4: 0x0c }[message.kind] ?? 0], message.looks, set(message.ranges));
}

/** @param {number[] | null} place @param {number[] | null} caret */
function placed(place, caret) {
  if (String(place) === String(caret)) return [];
  if (!place) return [5, 0];
  if (!caret || caret[0] !== place[0]) return [5, ...varint(place[0]), ...varint(place[1])];
  const far = place[1] - caret[1];
  return [4, ...varint(far >= 0 ? 2 * far : -2 * far - 1)];
}

/** @param {Uint8Array} data */
function inserted(data) {
  if (data.length > 1) return [6, ...varint(data.length - 2), ...data];
  return [1, 2, 3, 4, 5, 6, 7, 8, 11, 12, 14, 15].includes(data[0]) ? [14, ...data] : [...data];
}

/** @param {number[][]} ranges */
function set(ranges) {
  let [site, end] = [0, 0];
  const parts = ranges.map(([of, at, length]) => {
    const more = [...varint(of - site), ...varint(at - (of === site ? 1 + end : 0)), ...varint(length - 1)];
    [site, end] = [of, at + length];
    return more;
  });
  return [...varint(ranges.length - 1), ...parts.flat()];
}

// A note.

/** @param {Uint8Array} founding @param {boolean} sealed */
async function noteOf(founding, sealed = true) {
  const key = await sha256(join('vialshoal 2 key', founding));
  const uses = ['hash', 'seal', 'nonce', 'presence', 'append'];
  const [hash, seal, nonce, presence, append] = await Promise.all(uses.map((use) => derived(key, use)));
  const appending = await pair(append);
  const own = sealed ? appending.name : await derived(key, 'plain');
  const identity = (await sha256(join('vialshoal 2 note', own))).slice(0, 16);
  return { key, hash, seal, nonce, presence, appending, public: own, identity, form: sealed ? 4 : 3 };
}

/** @typedef {Awaited<ReturnType<typeof noteOf>>} Note */
/** @typedef {{ name: Uint8Array, key?: webcrypto.CryptoKey }} Author */

/** @param {Note} note @param {keyof typeof KINDS} kind @param {Author} author
 * @param {{ site?: number, of?: number, first?: number, count?: number, before?: Uint8Array }} fields @param {Uint8Array} body */
async function entry(note, kind, author, { site = 0, of = 0, first = 0, count = 0, before = ZEROS }, body) {
  const place = join(number(site, 2), [of], number(first, 4), number(count, 2), before);
  const head = join([note.form, KINDS[kind]], note.identity, author.name, place);
  const nonce = (await hmac(note.nonce, join(head, body))).slice(0, 12);
  if (note.form === 3) return join(head, nonce, body);
  const data = join(head, nonce, await boxed(note.seal, nonce, body, head));
  return join(data, await signature({ key: /** @type {webcrypto.CryptoKey} */ (author.key) }, data));
}

/** The entry of messages, some of which say what they build on, and the hashes of its messages.
 * @param {Note} note @param {Author} author @param {Uint8Array} before @param {Message[]} messages
 * @param {Record<number, Uint8Array>} ons @param {number} length */
async function written(note, author, before, messages, ons = {}, length = 0) {
  const [{ site, text: of, seq: first }] = messages;
  const said = Object.entries(ons).map(([index, on]) => join(number(Number(index), 2), on));
  const hashes = [before];
  for (const [index, message] of messages.entries()) {
    hashes.push(await hmac(note.hash, join([1], author.name, hashes[index], spelled(message), ons[index] ?? [])));
  }
  const body = join(number(said.length, 2), ...said, chunk(messages, length));
  const raw = await entry(note, 'messages', author, { site, of, first, count: messages.length, before }, body);
  return { raw, hashes: hashes.slice(1) };
}

/** @param {Uint8Array} secret @param {Message[]} messages */
async function baseHashes(secret, messages) {
  const key = await derived(secret, 'base');
  const hashes = [ZEROS];
  for (const message of messages) hashes.push(await hmac(key, join(/** @type {Uint8Array} */ (hashes.at(-1)), spelled(message))));
  return hashes;
}

/** The first counter from one on by which an author claims a number.
 * @param {Note} note @param {Author} author @param {number} bits @param {number} from */
async function claimed(note, author, bits, from = 0) {
  for (let begin = from; ; begin += 256) {
    const counters = Array.from({ length: 256 }, (_, at) => number(begin + at, 8));
    const begins = join('vialshoal 2 claim', note.identity, author.name);
    const ranks = await Promise.all(counters.map((counter) => subtle.digest('SHA-512', join(begins, counter))));
    for (const [at, buffer] of ranks.entries()) {
      const rank = new Uint8Array(buffer).slice(0, 32);
      const site = rank[0] * 256 + rank[1];
      const zeros = ((rank[2] * 256 + rank[3]) * 256 + rank[4]) >> (24 - bits);
      if (!zeros && site >= 1 && site <= 65528) return { counter: begin + at, site, rank };
    }
  }
}

/** @param {Note} note @param {Author} author @param {{ counter: number, site: number }} claim */
const claiming = (note, author, { counter, site }) => entry(
  note, 'claim', author, { site, before: join(new Uint8Array(24), number(counter, 8)) }, new Uint8Array(0));

/** @param {Uint8Array} key @param {string} url @param {string} form */
async function link(key, url, form) {
  const check = (await sha256(join(`vialshoal 2 link ${form}`, key, url))).slice(0, 4);
  return `vialshoal:2:${form}:${Buffer.from(join(key, check)).toString('base64url')}@${url}`;
}

// The vectors.

/** A note that began with a copy, in which three authors wrote.
 * @param {number} bits of a claim that are zero */
async function sealedNote(bits) {
  const secret = await chosen('secret');
  const [ada, bob, cy] = await Promise.all(['ada', 'bob', 'cy'].map(async (word) => pair(await chosen(word))));
  const copied = [inserting([1, 7, 1, 1], null, 0, 'tea'), naming(2, [1, 7, 2, 2], [[7, 0, 1]]),
    inserting([1, 9, 1, 3], [7, 2], 0, 's'), inserting([2, 9, 1, 1], null, 0, 'remark\n')];
  const hashes = await baseHashes(secret, copied);
  const founding = join(secret, /** @type {Uint8Array} */ (hashes.at(-1)), ada.name, number(1, 2));
  const note = await noteOf(founding);
  const own = { ...note.appending };
  /** @type {{ what: string, raw: Uint8Array, hashes?: Uint8Array[] }[]} */
  const entries = [{ what: 'opening', raw: await entry(note, 'opening', own, {}, founding) }];
  for (const [begin, count] of [[0, 2], [2, 1], [3, 1]]) {
    const some = copied.slice(begin, begin + count);
    const [{ site, text: of, seq: first }] = some;
    const raw = await entry(note, 'base', own, { site, of, first, count, before: hashes[begin] }, chunk(some));
    entries.push({ what: 'base', raw, hashes: hashes.slice(begin + 1, begin + 1 + count) });
  }
  const claims = { bob: await claimed(note, bob, bits), cy: await claimed(note, cy, bits) };
  entries.push({ what: 'claim', raw: await claiming(note, bob, claims.bob) }, { what: 'claim', raw: await claiming(note, cy, claims.cy) });
  entries.push(...await conversation(note, ada, bob, claims.bob.site));
  const last = entries[entries.length - 1].hashes?.[0] ?? ZEROS;
  entries.push(...await more(note, ada, bob, cy, claims.bob.site, claims.cy.site, entries));
  const says = join(bob.name, number(claims.bob.site, 2), ada.name, number(1, 2), last, [1, 2, 1], varint(300), [0, 5]);
  entries.push({ what: 'anew', raw: await entry(note, 'anew', bob, { site: claims.bob.site, of: 1, before: last }, new Uint8Array(0)) });
  entries.push({ what: 'copies', raw: await entry(note, 'copies', bob, { site: claims.bob.site, of: 1, before: last }, says) });
  entries.push({ what: 'renewed', raw: await entry(note, 'renewed', cy, { site: claims.cy.site }, text.encode('Cy')) });
  return { note, founding, entries, claims, authors: { ada, bob, cy } };
}

/** What two of them write: in both texts, of all four kinds, on each other's characters, in one entry and cut otherwise.
 * @param {Note} note @param {Author} ada @param {Author} bob @param {number} site Bob's */
async function conversation(note, ada, bob, site) {
  /** @param {Uint8Array[]} hashes */
  const on = (...hashes) => hmac(note.hash, join([2], ...hashes));
  const first = await written(note, ada, ZEROS, [inserting([1, 1, 1, 4], [9, 0], 0, ' '), inserting([1, 1, 2, 5], [1, 0], 1, '\u0007'),
    inserting([1, 1, 3, 6], [1, 1], 2, 'milk and honey')]);
  const messages = [inserting([1, site, 1, 7], [1, 5], 0, 'y'), naming(2, [1, site, 2, 8], [[1, 2, 3]]),
    naming(2, [1, site, 3, 9], [[1, 9, 1]]),
    naming(3, [1, site, 4, 12], [[1, 2, 2], [1, 6, 1], [site, 0, 1]].sort((a, b) => a[0] - b[0]), [2, 3]),
    naming(4, [1, site, 5, 13], [[1, 2, 1]])];
  const ons = { 0: await on(first.hashes[2]), 2: await on(first.hashes[2]) };
  const whole = await written(note, bob, ZEROS, messages, ons);
  const begin = await written(note, bob, ZEROS, messages.slice(0, 2), { 0: ons[0] });
  const end = await written(note, bob, begin.hashes[1], messages.slice(2), { 0: ons[2] }, 1);
  const margin = await written(note, bob, ZEROS, [inserting([2, site, 1, 2], [9, 6], 0, 'why?\n')]);
  const reply = await written(note, ada, ZEROS, [inserting([2, 1, 1, 3], [site, 4], 0, 'so!\n')], { 0: await on(margin.hashes[0]) });
  return [first, whole, begin, end, margin, reply].map((one) => ({ what: 'messages', ...one }));
}

/** What builds on two others at once, the greatest text, and words about the margin.
 * @param {Note} note @param {Author} ada @param {Author} bob @param {Author} cy @param {number} bobs @param {number} cys their numbers
 * @param {{ hashes?: Uint8Array[] }[]} entries */
async function more(note, ada, bob, cy, bobs, cys, entries) {
  const [typed, answered, , , margin, reply] = entries.slice(-6).map(({ hashes = [] }) => hashes);
  const lasts = [{ site: 1, range: [1, 15, 1], hash: typed[2] }, { site: bobs, range: [bobs, 0, 1], hash: answered[0] }];
  lasts.sort((one, other) => one.site - other.site);
  const on = await hmac(note.hash, join([2], ...lasts.map(({ hash }) => hash)));
  const both = await written(note, cy, ZEROS, [naming(2, [1, cys, 1, 14], lasts.map(({ range }) => range))], { 0: on });
  const last = await written(note, bob, ZEROS, [inserting([16, bobs, 1, 1], null, 0, 'the last text')]);
  const anew = await entry(note, 'anew', ada, { site: 1, of: 2, before: reply[0] }, new Uint8Array(0));
  const says = join(ada.name, number(1, 2), bob.name, number(bobs, 2), margin[0], [1, 1, 1]);
  const copies = await entry(note, 'copies', ada, { site: 1, of: 2 }, says);
  return [{ what: 'messages', ...both }, { what: 'messages', ...last }, { what: 'anew', raw: anew }, { what: 'copies', raw: copies }];
}

/** A note on one machine, that began with a copy, in which two wrote.
 * @param {number} bits of a claim that are zero */
async function plainNote(bits) {
  const [author, other] = [{ name: await chosen('plain author') }, { name: await chosen('plain other') }];
  const secret = await chosen('plain secret');
  const copied = [inserting([1, 5, 1, 1], null, 0, 'tea ')];
  const hashes = await baseHashes(secret, copied);
  const founding = join(secret, hashes[1], author.name, number(1, 2));
  const note = await noteOf(founding, false);
  const own = { name: note.public };
  const claim = await claimed(note, other, bits);
  const { site } = claim;
  const typed = await written(note, author, ZEROS, [inserting([1, 1, 1, 2], [5, 3], 0, 'a'), inserting([1, 1, 2, 3], [1, 0], 1, 'b')]);
  const on = await hmac(note.hash, join([2], typed.hashes[1]));
  const answer = await written(note, other, ZEROS, [inserting([1, site, 1, 4], [1, 1], 0, 'c')], { 0: on });
  const place = { site, of: 1, before: answer.hashes[0] };
  const says = join(other.name, number(site, 2), author.name, number(1, 2), typed.hashes[1], [1, 2, 1]);
  return {
    note,
    founding,
    claim,
    other,
    entries: [
      { what: 'opening', raw: await entry(note, 'opening', own, {}, founding) },
      { what: 'base', raw: await entry(note, 'base', own, { site: 5, of: 1, first: 1, count: 1 }, chunk(copied)), hashes: [hashes[1]] },
      { what: 'claim', raw: await claiming(note, other, claim) },
      { what: 'messages', ...typed },
      { what: 'messages', ...answer },
      { what: 'anew', raw: await entry(note, 'anew', other, place, new Uint8Array(0)) },
      { what: 'copies', raw: await entry(note, 'copies', other, place, says) },
      { what: 'renewed', raw: await entry(note, 'renewed', author, { site: 1 }, text.encode('\u00c9va')) },
    ],
  };
}

/** What an editor says of itself, whose cursor and the other end of whose selection are in a text.
 * @param {Uint8Array} engine @param {Uint8Array} editor @param {number} site @param {number[]} colour @param {number} of
 * @param {number[]} cursor @param {number[]} anchor @param {string} name */
function isOn(engine, editor, site, colour, of, cursor, anchor, name) {
  const places = [cursor, anchor].flatMap(([at, offset]) => [...number(at, 2), ...number(offset, 4)]);
  const said = join(engine, editor, number(site, 2), colour, [3 + 16 * (of - 1)], places, name);
  return join(said, new Uint8Array(210 - said.length));
}

/** What an engine says it lacks.
 * @param {Uint8Array} token @param {number} count @param {number} asks @param {[number, Uint8Array][]} lacks @param {number} hears */
function lacking(token, count, asks, lacks, hears) {
  const said = join(token, number(count, 4), number(asks, 4), ...lacks.map(([way, of]) => join([way], of)));
  return join(said, new Uint8Array(189 - said.length), [hears], new Uint8Array(26));
}

/** @param {{ what: string, raw: Uint8Array, hashes?: Uint8Array[] }[]} entries */
const shown = (entries) => entries.map(({ what, raw, hashes = [] }) => ({ what, raw: hex(raw), hashes: hashes.map(hex) }));

/** @param {Note} note */
const keys = (note) => ({ key: hex(note.key), hash: hex(note.hash), seal: hex(note.seal), nonce: hex(note.nonce),
  presence: hex(note.presence), append: hex(note.appending.secret), public: hex(note.public), identity: hex(note.identity) });

const bits = 8;
const made = await sealedNote(bits);
const { note } = made;
const plain = await plainNote(bits);
const beside = join([5], note.identity);
/** @param {Uint8Array} data */
const presence = async (data) => {
  const nonce = (await hmac(note.nonce, join(beside, data))).slice(0, 12);
  return { data: hex(data), raw: hex(join(nonce, await boxed(note.presence, nonce, data, beside))) };
};
const token = join((await chosen('engine')).slice(0, 8), number(7, 8));
const counted = join(token.slice(0, 8), new Uint8Array(8));
const editing = (await chosen('editor')).slice(0, 16);
const challenge = await chosen('challenge');
const origin = 'https://notes.example';
const bob = made.authors.bob.name;
// The first from 0 on, which took half a minute to find.
const full = await claimed(note, made.authors.cy, 20, 760_320);
const found = {
  bits,
  sealed: { founding: hex(made.founding), ...keys(note), entries: shown(made.entries) },
  authors: Object.fromEntries(Object.entries(made.authors).map(([word, one]) => [word, { secret: hex(one.secret), name: hex(one.name) }])),
  claims: Object.fromEntries(Object.entries({ ...made.claims, full }).map(([word, one]) => [word, { ...one, rank: hex(one.rank) }])),
  asked: { author: hex(bob), site: 258, name: hex(await hmac(note.hash, join([0], bob, number(258, 2)))),
    opening: hex(await hmac(note.hash, join([0]))) },
  plain: { founding: hex(plain.founding), ...keys(plain.note), entries: shown(plain.entries) },
  presence: await presence(isOn(token, editing, made.claims.bob.site, [0xc0, 0x39, 0x2b], 2, [9, 6], [0, 0], 'B\u00f6b')),
  lacking: await presence(lacking(counted, 8, 3, [[1, await chosen('lacked')], [2, await chosen('before')]], 2)),
  proof: { challenge: hex(challenge), origin, signature: hex(await signature(note.appending, join('vialshoal 2 append', note.identity,
    challenge, origin))) },
  page: (await link(note.key, origin, 's')).replace(/(.*)@(.*)/, '$2/#$1'),
  links: [{ form: 's', key: hex(note.key), url: origin, link: await link(note.key, origin, 's') },
    { form: 'p', key: hex(plain.note.key), url: '/srv/notes/plan.log', link: await link(plain.note.key, '/srv/notes/plan.log', 'p') }],
};
console.log(JSON.stringify(found, null, 1));
