// What tests that also run in Node use, in a page or in a worker: it stands there in place of library/node/tests/here.js.
import * as vialshoal from '../out/node/browser.mjs';

const Bytes = new vialshoal.Text(1, 1).bytes().constructor;

// What the tests use of Node's Buffer beside what the package has.
class Buffer extends Bytes {
    static alloc(length, byte = 0) {
        return new Buffer(length).fill(byte);
    }

    static from(data, encoding = 'utf8') {
        if (encoding === 'utf8') return Bytes.from(data);
        if (encoding === 'latin1') return Bytes.from([...data].map((letter) => letter.charCodeAt(0)));
        return Bytes.from(data.match(/../g).map((digits) => parseInt(digits, 16)));
    }
}

function isEqual(one, other) {
    if (typeof one !== 'object' || one === null || typeof other !== 'object' || other === null) return Object.is(one, other);
    if (one instanceof Map && other instanceof Map) return isEqual([...one], [...other]);
    const [keys, others] = [Object.keys(one), Object.keys(other)];
    return Object.getPrototypeOf(one) === Object.getPrototypeOf(other) && keys.length === others.length &&
        keys.every((key) => Object.hasOwn(other, key) && isEqual(one[key], other[key]));
}

function holds(condition, ...words) {
    if (!condition) throw new Error(`it isn't so: ${words.map((word) => JSON.stringify(word) ?? String(word)).join(' and ')}`);
}

function isExpected(thrown, expected) {
    if (expected instanceof RegExp) return expected.test(thrown);
    if (typeof expected === 'object') return Object.keys(expected).every((key) => isEqual(thrown?.[key], expected[key]));
    return expected.prototype instanceof Error ? thrown instanceof expected : expected(thrown);
}

const assert = {
    ok: holds,
    equal: (one, other) => holds(Object.is(one, other), one, other),
    deepEqual: (one, other) => holds(isEqual(one, other), one, other),
    throws(call, expected = () => true) {
        let thrown;
        try {
            call();
        } catch (why) {
            thrown = why;
        }
        holds(thrown !== undefined && isExpected(thrown, expected), String(thrown), String(expected));
    },
};
assert.strictEqual = assert.equal;
assert.deepStrictEqual = assert.deepEqual;

export { assert, Buffer, vialshoal };
export const part = (name) => import(new URL(`../out/node/${name}`, import.meta.url));
// (Node plays all)
export const rounds = (count) => Math.ceil(count / 10);
