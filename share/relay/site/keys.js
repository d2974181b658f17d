// A note's key and what comes of it, and signatures, as docs/NOTES.md has them: by WebCrypto alone.
import { hex, join, ofBase64url } from "./bytes.js";

export const [KEY_BYTES, IDENTITY_BYTES, NONCE_BYTES, POINT_BYTES, SIGNED_BYTES] = [32, 16, 12, 32, 64];
const { subtle } = globalThis.crypto ?? {};
/** The public keys that were asked for, by their bytes; and how many are kept at most.
 * @type {Map<string, Promise<CryptoKey>>} */
const publicKeys = new Map();
const MOST_KEYS = 1_000;
// What is before a secret of Ed25519 where WebCrypto takes one.
const OF_SECRET = [0x30, 0x2e, 2, 1, 0, 0x30, 5, 6, 3, 0x2b, 0x65, 0x70, 4, 0x22, 4, 0x20];
const [TOP_BIT, FIELD, ORDER] = [2n ** 255n, 2n ** 255n - 19n, 2n ** 252n + 27742317777372353535851937790883648493n];
// Points of small order, by their y.
const SMALL_ORDER = [0n, 1n, FIELD - 1n, 0x05fc536d880238b13933c6d305acdfd5f098eff289f4c345b027b2c28f95e826n,
  0x7a03ac9277fdc74ec6cc392cfa53202a0f67100d760b3cba4fd83d3d8e7a17c7n];

/** Somebody's key pair: the public half is what an author is called.
 * @typedef {{ key: CryptoKey, secret: Uint8Array, name: Uint8Array }} Author */

/** @param {Uint8Array} data */
export const sha256 = async (data) => new Uint8Array(await subtle.digest("SHA-256", data));

/** Whether this browser has all that a note needs. */
export async function hasCiphers() {
  try {
    return Boolean(await subtle.generateKey("Ed25519", false, ["sign", "verify"]));
  } catch {
    return false;
  }
}

/** The pair of a secret of 32 bytes.
 * @param {Uint8Array} secret @returns {Promise<Author>} */
export async function authorOf(secret) {
  const key = await subtle.importKey("pkcs8", join(OF_SECRET, secret), "Ed25519", true, ["sign"]);
  const { x = "" } = await subtle.exportKey("jwk", key);
  return { key, secret, name: ofBase64url(x) };
}

/** @param {Author} author @param {Uint8Array} data */
export const signed = async (author, data) => new Uint8Array(await subtle.sign("Ed25519", author.key, data));

/** Whether this is a signature by the key with this public half, to all who check it.
 * @param {Uint8Array} data @param {Uint8Array} signature @param {Uint8Array} name */
export async function isSigned(data, signature, name) {
  if (signature.length !== SIGNED_BYTES || !isPoint(name) || !isPoint(signature.subarray(0, POINT_BYTES))
      || littleEndian(signature.subarray(POINT_BYTES)) >= ORDER) return false;
  try {
    return await subtle.verify("Ed25519", await publicKey(name), signature, data);
  } catch {
    return false;
  }
}

/** The key with a public half.
 * @param {Uint8Array} name */
function publicKey(name) {
  const spelled = hex(name);
  let key = publicKeys.get(spelled);
  if (key) return key;
  key = subtle.importKey("raw", name, "Ed25519", false, ["verify"]);
  // Entries are by few authors; who makes up many has others' keys be imported again.
  if (publicKeys.size >= MOST_KEYS) publicKeys.clear();
  publicKeys.set(spelled, key);
  key.catch(() => publicKeys.delete(spelled));
  return key;
}

/** Whether a public key, or the first half of a signature, is one that all libraries check alike.
 * @param {Uint8Array} bytes */
export function isPoint(bytes) {
  if (bytes.length !== POINT_BYTES) return false;
  const y = littleEndian(bytes) % TOP_BIT;
  return y < FIELD && !SMALL_ORDER.includes(y);
}

/** @param {Uint8Array} bytes 32 of them */
function littleEndian({ buffer, byteOffset }) {
  const words = new DataView(buffer, byteOffset, POINT_BYTES);
  return [24, 16, 8, 0].reduce((value, at) => value << 64n | words.getBigUint64(at, true), 0n);
}

/** What comes of a key for a use.
 * @param {Uint8Array} key @param {string} use */
export async function derived(key, use) {
  const from = await subtle.importKey("raw", key, "HKDF", false, ["deriveBits"]);
  const how = { name: "HKDF", hash: "SHA-256", salt: new Uint8Array(0), info: join("vialshoal 2 ", use) };
  return new Uint8Array(await subtle.deriveBits(how, from, 8 * KEY_BYTES));
}

/** What names something by a key.
 * @param {Uint8Array} key @returns {Promise<(data: Uint8Array) => Promise<Uint8Array>>} */
export async function digesting(key) {
  const signs = await subtle.importKey("raw", key, { name: "HMAC", hash: "SHA-256" }, false, ["sign"]);
  return async (data) => new Uint8Array(await subtle.sign("HMAC", signs, data));
}

/** The key of the note that begins with this.
 * @param {Uint8Array} founding */
export const keyOfFounding = (founding) => sha256(join("vialshoal 2 key", founding));

/** The keys of a sealed note. */
export class NoteKeys {
  /** @param {Uint8Array} key @param {Author} itself who writes the opening and the base @param {Uint8Array} identity
   * @param {CryptoKey} seal @param {CryptoKey} presence @param {CryptoKey} nonce */
  constructor(key, itself, identity, seal, presence, nonce) {
    this.key = key;
    this.itself = itself;
    this.identity = identity;
    this.seal = seal;
    this.presence = presence;
    this.#nonce = nonce;
  }

  #nonce;

  /** @param {Uint8Array} key */
  static async of(key) {
    const [seal, presence, nonce, append] = await Promise.all(["seal", "presence", "nonce", "append"].map((use) => derived(key, use)));
    const itself = await authorOf(append);
    const identity = (await sha256(join("vialshoal 2 note", itself.name))).slice(0, IDENTITY_BYTES);
    const [boxes, says] = await Promise.all([seal, presence].map((one) => (
      subtle.importKey("raw", one, "AES-GCM", false, ["encrypt", "decrypt"]))));
    return new NoteKeys(key, itself, identity, boxes, says,
      await subtle.importKey("raw", nonce, { name: "HMAC", hash: "SHA-256" }, false, ["sign"]));
  }

  /** The nonce under which this is said.
   * @param {Uint8Array} data */
  async nonceOf(data) {
    return new Uint8Array(await subtle.sign("HMAC", this.#nonce, data)).slice(0, NONCE_BYTES);
  }

  /** What shows a relay of this origin, which chose the challenge, that one has the note's link.
   * @param {Uint8Array} challenge @param {string} origin */
  proof(challenge, origin) {
    return signed(this.itself, join("vialshoal 2 append", this.identity, challenge, origin));
  }
}

/** @param {CryptoKey} key @param {Uint8Array} nonce @param {Uint8Array} data @param {Uint8Array} beside */
export async function boxed(key, nonce, data, beside) {
  return new Uint8Array(await subtle.encrypt({ name: "AES-GCM", iv: nonce, additionalData: beside }, key, data));
}

/** What a box has, or nothing where it isn't one of this key.
 * @param {CryptoKey} key @param {Uint8Array} nonce @param {Uint8Array} box @param {Uint8Array} beside */
export async function unboxed(key, nonce, box, beside) {
  try {
    return new Uint8Array(await subtle.decrypt({ name: "AES-GCM", iv: nonce, additionalData: beside }, key, box));
  } catch {
    return null;
  }
}
