// What tests that also run in pages use, in Node; VIALSHOAL_PACKAGE may name another package than that in library/out.
import { strict } from 'node:assert';
import path from 'node:path';
import { fileURLToPath, pathToFileURL } from 'node:url';

const BESIDE = path.dirname(fileURLToPath(import.meta.url));

export { strict as assert };
export { Buffer } from 'node:buffer';
export const PACKAGE = path.resolve(BESIDE, process.env.VIALSHOAL_PACKAGE ?? '../../out/node');
// A module of the package.
export const part = (name) => import(pathToFileURL(path.join(PACKAGE, name)).href);
export const vialshoal = await part('index.js');
// How often a test at random is played.
export const rounds = (count) => count;
