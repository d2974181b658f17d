// What Node, or a page, brings: bytes, and the library's calls, by the addon or by WebAssembly.

/** @type {any} */
export let Buffer;
/** @type {(bytes: Uint8Array) => boolean} */
export let isAscii;
/** @type {(bytes: Uint8Array) => boolean} */
export let isUtf8;
/** @type {any} */
export let calls;
// The classes of files that texts and notes are kept in, where there are files.
/** @type {any} */
export let Journal;
/** @type {any} */
export let NoteFile;

// (the module that is imported first calls it, before any other's calls are made)
export function use(host) {
    ({ Buffer, isAscii, isUtf8, calls, Journal, NoteFile } = host);
}
