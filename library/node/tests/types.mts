// Calls as users write them, for the compiler alone: the types of index.d.ts.
import {
    Backlog, Damaged, FrontsDiffer, Misused, Note, Past, Presence, Refused, Text, UndoManager, mergeChunks, type Anchor, type Delta, type Edit, type Entry,
} from '../index.js';
import { CodeMirrorBinding, type Cursor } from '../codemirror.js';
import { IndexedDBStore } from '../indexeddb.js';
import { Relay } from '../relay.js';
import { WebSocketProvider } from '../websocket.js';

export function used(): Delta {
    const text = new Text(1, 1, { units: 'utf-16' }), past: Past = text.past(text.fronts());
    const end = text.subscribe(({ delta, own, origin, messages }: Edit) => console.log(delta, own, origin, messages.length));
    try {
        text.batch(() => text.insert(0, 'Oberon', { colour: 2 }), 'keys');
    } catch (why) {
        if (why instanceof Refused) console.log(why.code, why.messages.length);
        if (why instanceof RangeError) console.log((why as Misused).code);
    }
    end();
    past[Symbol.dispose]();
    return text.delta().flatMap(({ delta }) => delta.filter((step) => 'insert' in step));
}

interface State {
    site: number;
    cursor: { anchor: Anchor; head: Anchor };
}

export function shared(text: Text, sent: (bytes: Uint8Array) => void): number {
    const undo = new UndoManager<Anchor>(text, { origins: ['keys'], selection: () => text.anchor(0) });
    const presence = new Presence<State>({ timeout: 1000 }), backlog = new Backlog(text);
    sent(presence.set({ site: text.site, cursor: { anchor: text.anchor(0), head: text.anchor(1, 1) } }));
    const places = [...presence.states().values()].map(({ cursor }) => text.position(cursor.anchor));
    try {
        mergeChunks(text.copy(2, { at: text.fronts() }).pack(text.state()), [[1, 1]]).forEach((chunk) => backlog.take(chunk));
    } catch (why) {
        if (why instanceof FrontsDiffer) return why.seq;
    }
    const undone = undo.undo();
    undone?.chunks.forEach(sent);
    return places.length + text.diff(text.fronts()).length + (undone?.selection?.site ?? 0);
}

export function connected(text: Text, editor: unknown): () => void {
    const presence = new Presence<Cursor & { site: number }>();
    const binding = new CodeMirrorBinding(text, editor, { presence, user: { name: 'Ann', colour: '#0060c0' }, undo: { captureTime: 300 } });
    const provider = new WebSocketProvider(text, 'ws://localhost', { presence, connect: false });
    const end = provider.subscribe(({ status, error }) => console.log(status, error instanceof FrontsDiffer ? error.site : error?.message));
    console.log([...binding.cursors.values()].map(({ head, name }) => `${name} ${head}`));
    return () => { end(); provider.close(); binding.close(); };
}

export async function kept(): Promise<number> {
    const store = await IndexedDBStore.open('note', { site: 1, units: 'utf-16' }), provider = new WebSocketProvider(store.text, '', { store });
    provider.close();
    await store.close();
    const relay = new Relay((room) => Text.open(`rooms${room}`, { text: 1, site: 9 }));
    try {
        return Text.open('note').torn.length + relay.texts.size;
    } catch (why) {
        return why instanceof Damaged ? why.code.length : 0;
    }
}

export function said(site: number, key: Uint8Array, author: Uint8Array, came: Entry[]): Entry[] {
    const note = new Note(site, { key, founder: author, number: site }), text = note.text(1, { units: 'utf-16' });
    came.forEach((entry) => note.add(entry));
    note.update();
    text.insert(text.length, '!');
    return note.say(author).filter(({ head, body }) => head.count > 0 && body.length > 0 && text.past(text.fronts()).length > 0);
}

export function opened(path: string, key: Uint8Array, author: Uint8Array, sent: (entries: Entry[]) => void): string {
    using(Note.open(path, { site: 1, key, founder: author, number: 1, base: [] }), (note) => {
        sent(note.kept());
        note.text().insert(0, 'Oberon');
        sent(note.say(author));
    });
    const again = Note.open(path, { site: 2, key, founder: author });
    again.claim(author, 2, key);
    again.update();
    return `${again.text()} ${again.kept().map(({ body }) => body.length)}`;
}

function using(note: Note, use: (note: Note) => void): void {
    try {
        use(note);
    } catch (why) {
        if (why instanceof Damaged) console.log(why.code);
    } finally {
        note.close();
    }
}
