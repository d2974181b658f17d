// Bytes, and how they are spelled.

/** A fault that a user is told in words. */
export class Trouble extends Error {}

const ENCODER = new TextEncoder();

/** Bytes one after the other; texts are in UTF-8.
 * @param {...(string | ArrayBuffer | ArrayLike<number>)} parts */
export function join(...parts) {
  const arrays = parts.map((part) => (typeof part === "string" ? ENCODER.encode(part) : new Uint8Array(part)));
  const found = new Uint8Array(arrays.reduce((sum, one) => sum + one.length, 0));
  let at = 0;
  for (const one of arrays) {
    found.set(one, at);
    at += one.length;
  }
  return found;
}

/** A number in so many bytes, the highest first.
 * @param {number | bigint} value @param {number} size */
export function number(value, size) {
  const found = new Uint8Array(size);
  let left = BigInt(value);
  for (let at = size - 1; at >= 0; at -= 1) {
    found[at] = Number(left & 255n);
    left >>= 8n;
  }
  return found;
}

/** The number that stands at a place, of six bytes at most.
 * @param {Uint8Array} bytes @param {number} at @param {number} size */
export function numberAt(bytes, at, size) {
  return bytes.subarray(at, at + size).reduce((value, one) => value * 256 + one, 0);
}

/** @param {Uint8Array} one @param {Uint8Array} other */
export function equal(one, other) {
  return one.length === other.length && one.every((byte, at) => byte === other[at]);
}

/** @param {Uint8Array} bytes */
export const isZeros = (bytes) => bytes.every((byte) => byte === 0);

const DIGITS = Array.from({ length: 256 }, (_, byte) => byte.toString(16).padStart(2, "0"));

/** @param {Uint8Array} bytes */
export function hex(bytes) {
  let found = "";
  for (const byte of bytes) found += DIGITS[byte];
  return found;
}

/** @param {Uint8Array} bytes */
export function base64url(bytes) {
  return btoa(String.fromCharCode(...bytes)).replaceAll("+", "-").replaceAll("/", "_").replace(/=+$/, "");
}

/** The bytes that are spelled so, by letters, digits, - and _ alone.
 * @param {string} spelled */
export function ofBase64url(spelled) {
  return Uint8Array.from(atob(spelled.replaceAll("-", "+").replaceAll("_", "/")), (one) => one.charCodeAt(0));
}

/** @param {number} size */
export const random = (size) => crypto.getRandomValues(new Uint8Array(size));
