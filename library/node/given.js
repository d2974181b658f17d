// What calls are given, as the library takes it: a number that is none of what is meant is a RangeError, and what has another type a
// TypeError.
import { failure, NO_NUMBER, OUT_OF_TEXT } from './errors.js';
import { Buffer } from './host.js';

const MOST = 2 ** 32 - 1;
const MOST_SITE = 65535;
// Of which class typed arrays are, wherever they come from.
/** @type {any} */
const kindOf = Object.getOwnPropertyDescriptor(Object.getPrototypeOf(Uint8Array.prototype), Symbol.toStringTag)?.get;

function isNumber(value) {
    if (typeof value !== 'number') throw new TypeError(`a number is wanted, not ${shown(value)}`);
}

function shown(value) {
    if (typeof value === 'string') return JSON.stringify(value.slice(0, 40));
    return typeof value === 'object' ? Object.prototype.toString.call(value) : String(value);
}

export function instance(value, Kind) {
    if (!(value instanceof Kind)) throw new TypeError(`a ${Kind.name} is wanted, not ${shown(value)}`);
    return value;
}

export function position(pos) {
    isNumber(pos);
    if (!Number.isSafeInteger(pos) || pos < 0) throw failure(OUT_OF_TEXT);
    return pos;
}

export function number(value, least, most) {
    isNumber(value);
    if (!Number.isInteger(value) || value < least || value > most) throw failure(NO_NUMBER);
    return value;
}

export function site(value, least = 0) {
    return number(value, least, MOST_SITE);
}

export function offset(value) {
    return number(value, 0, MOST);
}

export function side(value) {
    if (value !== -1 && value !== 1) throw new TypeError(`a side is -1 or 1, not ${shown(value)}`);
    return value;
}

export function isBytes(data) {
    return kindOf.call(data) === 'Uint8Array';
}

export function bytes(data) {
    if (!isBytes(data)) throw new TypeError(`bytes are wanted, a Uint8Array or Buffer, not ${shown(data)}`);
    return data;
}

export function bytesOrString(data) {
    return typeof data === 'string' ? Buffer.from(data) : bytes(data);
}

export function font(name) {
    if (typeof name !== 'string') throw new TypeError(`a font is a string, not ${shown(name)}`);
    return Buffer.from(name);
}

export function object(value, what) {
    if (typeof value !== 'object' || value === null) throw new TypeError(`${what} is wanted, an object, not ${shown(value)}`);
    return value;
}

export function looks(value) {
    if (typeof value !== 'object' || value === null) throw new TypeError(`looks are an object, not ${shown(value)}`);
    return value;
}

function list(values, what) {
    if (typeof values?.[Symbol.iterator] !== 'function') throw new TypeError(`${what} are wanted, not ${shown(values)}`);
    return [...values];
}

// Ranges of names, as a site, an offset and a length each.
export function ranges(names) {
    return Uint32Array.from(list(names, 'names').flatMap((name) => [site(name.site), offset(name.offset), offset(name.length)]));
}

// Fronts, as a site and a number each.
export function fronts(asked) {
    return Uint32Array.from(list(asked, 'fronts').flatMap(([name, seq]) => [site(name, 1), offset(seq)]));
}
