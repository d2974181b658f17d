// Serves the example of two editors, and relays what they make: `node library/node/example/serve.mjs [PORT]`, and then the address that it
// says. It uses the packages node-ws and libjs-codemirror of Debian, and library/out/node or the package that VIALSHOAL_PACKAGE names.
import { createReadStream } from 'node:fs';
import { createServer } from 'node:http';
import { createRequire } from 'node:module';
import path from 'node:path';
import { fileURLToPath, pathToFileURL } from 'node:url';

const HERE = path.dirname(fileURLToPath(import.meta.url));
const PACKAGE = path.resolve(HERE, process.env.VIALSHOAL_PACKAGE ?? '../../out/node');
const FOLDERS = { node: PACKAGE, codemirror: '/usr/share/javascript/codemirror', test: path.join(HERE, '../../test'), example: HERE };
const TYPES = { html: 'text/html', js: 'text/javascript', mjs: 'text/javascript', css: 'text/css', wasm: 'application/wasm' };

const { Text } = await import(pathToFileURL(path.join(PACKAGE, 'index.js')).href);
const { Relay } = await import(pathToFileURL(path.join(PACKAGE, 'relay.js')).href);
const { WebSocketServer } = createRequire(import.meta.url)('/usr/share/nodejs/ws');

function fileOf(url) {
    const { pathname } = new URL(url, 'http://here');
    const [folder, ...rest] = pathname.slice(1).split('/').map(decodeURIComponent);
    const isPlain = Object.hasOwn(FOLDERS, folder) && rest.length > 0 && rest.every((name) => /^\w[\w.-]*$/.test(name));
    return isPlain ? path.join(FOLDERS[folder], ...rest) : undefined;
}

const server = createServer(({ url }, response) => {
    const file = fileOf(url);
    if (file === undefined) {
        response.writeHead(404).end();
        return;
    }
    createReadStream(file).on('error', () => response.writeHead(404).end())
        .on('open', () => response.setHeader('Content-Type', TYPES[path.extname(file).slice(1)] ?? 'text/plain')).pipe(response);
});
new Relay(() => new Text(1, 65_535)).serve(new WebSocketServer({ server }));
server.listen(Number(process.argv[2] ?? 0), '127.0.0.1', () => {
    console.log(`http://127.0.0.1:${server.address().port}/example/editors.html`);
});
