// Two editors of CodeMirror, each of a site of one text, by way of the relay that serves this page (serve.mjs).
import { Presence } from '/node/browser.mjs';
import { CodeMirrorBinding } from '/node/codemirror.js';
import { IndexedDBStore } from '/node/indexeddb.js';
import { WebSocketProvider } from '/node/websocket.js';

const NAMES = ['Ann', 'Bob'];
const asked = new URLSearchParams(location.search), room = asked.get('room') ?? 'room';

async function editor(section, index) {
    const store = await IndexedDBStore.open(`${room} ${NAMES[index]}`, { site: index + 1, units: 'utf-16' });
    const presence = new Presence(), cm = CodeMirror(section, { lineWrapping: true });
    const undo = asked.has('capture') ? { captureTime: Number(asked.get('capture')) } : {};
    const binding = new CodeMirrorBinding(store.text, cm, { presence, user: { name: NAMES[index] }, undo });
    const provider = new WebSocketProvider(store.text, `ws://${location.host}/${room}`, { presence, store });
    const [isOnLine, said] = [section.querySelector('input'), section.querySelector('span')];
    isOnLine.addEventListener('change', () => (isOnLine.checked ? provider.connect() : provider.disconnect()));
    const say = () => { said.textContent = `${provider.status} ${provider.error?.message ?? ''}`; };
    provider.subscribe(say);
    say();
    return { text: store.text, cm, binding, presence, provider, store };
}

try {
    // (for the console, and for tests)
    globalThis.editors = await Promise.all([...document.querySelectorAll('section')].map(editor));
} catch (why) {
    document.body.append(String(why));
}
