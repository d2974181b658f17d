// The package in pages and workers, over vialshoal.wasm, which lies beside it.
import { Buffer, isAscii, isUtf8 } from './bytes.js';
import { use } from './host.js';
import { callsOf } from './wasm.js';

const response = await fetch(new URL('vialshoal.wasm', import.meta.url));
if (!response.ok) throw new Error(`vialshoal.wasm: ${response.status}`);
const compiled = await WebAssembly.compile(await response.arrayBuffer());

use({ Buffer, isAscii, isUtf8, calls: callsOf(compiled) });

export * from './library.js';
export * as default from './library.js';
