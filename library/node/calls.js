import { readFileSync } from 'node:fs';
import { createRequire } from 'node:module';

import { callsOf } from './wasm.js';

// The library's calls: by the addon where it is there and loads, else by WebAssembly, which any machine has.
function found() {
    try {
        return createRequire(import.meta.url)('./vialshoal.node');
    } catch (why) {
        let module;
        try {
            module = new WebAssembly.Module(readFileSync(new URL('vialshoal.wasm', import.meta.url)));
        } catch {
            throw why;
        }
        return callsOf(module);
    }
}

export const calls = found();
