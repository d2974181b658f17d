// A text in CodeMirror 5: what is typed there goes into the text, what others do is shown, with their cursors and with looks, and undo takes
// back what was typed there alone.
import { Marks } from './marks.js';
import { UndoManager } from './undo.js';

const PAIR = /[\ud800-\udfff]/;
const HALF = /[\ud800-\udbff](?![\udc00-\udfff])|(?<![\ud800-\udbff])[\udc00-\udfff]/g;
const LOW = /[\udc00-\udfff]/;
const LINE_ENDS = /\r\n?|\n/;
// What only this binding sets, and what it sets back.
const OPTIONS = { lineSeparator: '\n', undoDepth: 0 };
const COLOUR = /^#[0-9a-f]{6}$/i;
const COLOURS = ['#b00020', '#0060c0', '#007040', '#8040b0', '#a05000', '#006878'];

const isHigh = (unit) => unit >= '\ud800' && unit < '\udc00';

// Where two strings begin to differ, and where that ends in each; no half of a pair is apart.
function difference(was, is) {
    const most = Math.min(was.length, is.length);
    let beg = 0, same = 0;
    while (beg < most && was[beg] === is[beg]) beg += 1;
    if (beg > 0 && isHigh(is[beg - 1])) beg -= 1;
    while (same < most - beg && was[was.length - 1 - same] === is[is.length - 1 - same]) same += 1;
    if (same > 0 && isHigh(was[was.length - same - 1])) same -= 1;
    return { beg, end: was.length - same, put: is.slice(beg, is.length - same) };
}

const isAt = (one, other) => one.line === other.line && one.ch === other.ch;

// What a delta does, from its last place on, so that no place is moved by what comes after it.
function splicesOf(delta) {
    const splices = [];
    let at = 0;
    for (const { retain = 0, delete: gone = 0, insert = '' } of delta) {
        const last = splices.at(-1);
        if (gone > 0) splices.push({ beg: at, end: at + gone, put: '' });
        else if (insert !== '' && last?.end === at) last.put += insert;
        else if (insert !== '') splices.push({ beg: at, end: at, put: insert });
        at += retain + gone;
    }
    return splices.reverse();
}

function colourOf(id) {
    return COLOURS[parseInt(id.slice(-6), 16) % COLOURS.length];
}

function caret(name, colour) {
    const element = document.createElement('span');
    element.className = 'vialshoal-caret';
    element.title = name;
    Object.assign(element.style, { borderLeft: `2px solid ${colour}`, marginLeft: '-1px', marginRight: '-1px' });
    return element;
}

// Others' cursors, as they say where these are.
class Cursors {
    #cm;
    #text;
    #presence;
    #marks = [];
    #end;

    constructor(cm, text, presence) {
        this.#cm = cm;
        this.#text = text;
        this.#presence = presence;
        this.#end = presence.subscribe(() => this.draw());
        this.draw();
    }

    // Those that are shown, by the ids of who they are of: where they are in the text.
    places() {
        const found = new Map();
        for (const [id, { cursor, user }] of this.#presence.states()) {
            if (id === this.#presence.id || !cursor) continue;
            try {
                const [anchor, head] = [cursor.anchor, cursor.head].map((place) => this.#text.position(place));
                const colour = COLOUR.test(user?.colour) ? user.colour : colourOf(id);
                found.set(id, { anchor, head, name: String(user?.name ?? ''), colour });
            } catch {
                // (it is at what didn't come yet, or anybody's)
            }
        }
        return found;
    }

    draw() {
        this.#cm.operation(() => {
            this.#marks.splice(0).forEach((mark) => mark.clear());
            for (const { anchor, head, name, colour } of this.places().values()) {
                const places = [Math.min(anchor, head), Math.max(anchor, head), head];
                const [beg, end, at] = places.map((index) => this.#cm.posFromIndex(index));
                this.#marks.push(this.#cm.setBookmark(at, { widget: caret(name, colour), insertLeft: true }));
                if (anchor !== head) {
                    this.#marks.push(this.#cm.markText(beg, end, { className: 'vialshoal-selection', css: `background-color: ${colour}33` }));
                }
            }
        });
    }

    close() {
        this.#end();
        this.#marks.splice(0).forEach((mark) => mark.clear());
    }
}

export class CodeMirrorBinding {
    #text;
    #cm;
    #presence;
    #user;
    #onError;
    #cursors;
    #marks;
    // The selections, as places that stay: now, and before the command that runs.
    #places = /** @type {any[]} */ ([]);
    #before;
    // What is to be set back at the end, and whether the editor is changed from here.
    #ends = /** @type {(() => void)[]} */ ([]);
    #isShowing = false;
    // What the command that runs is to change, and what it has changed, the one after the other.
    #asked = /** @type {any[]} */ ([]);
    #gathered = /** @type {any[]} */ ([]);

    constructor(text, cm, { presence, user, undo = {}, onError = undefined } = /** @type {any} */ ({})) {
        if (text.units !== 'utf-16') throw new TypeError("CodeMirror counts UTF-16 units: the text is to have { units: 'utf-16' }");
        this.#text = text;
        this.#cm = cm;
        this.#presence = presence;
        this.#user = user;
        this.#onError = onError ?? ((why) => queueMicrotask(() => { throw why; }));
        for (const [name, value] of Object.entries(OPTIONS)) this.#set(name, value);
        this.#show(() => cm.setValue(`${text}`));
        cm.clearHistory();
        this.#marks = new Marks(cm, text);
        this.undoManager = new UndoManager(text, { selection: () => this.#before ?? this.#places, ...undo, origins: [this] });
        this.#ends.push(() => this.undoManager.close(), text.subscribe((edit) => this.#told(edit)));
        for (const name of ['beforeChange', 'change', 'changes', 'cursorActivity']) this.#listen(name);
        // (what keys and menus call)
        Object.assign(cm, { undo: () => this.undo(), redo: () => this.redo() });
        this.#ends.push(() => { delete cm.undo; delete cm.redo; });
        if (presence !== undefined) this.#cursors = new Cursors(cm, text, presence);
        this.#say();
    }

    get text() {
        return this.#text;
    }

    // Others' cursors, by their ids: where they are, and whose.
    get cursors() {
        return this.#cursors?.places() ?? new Map();
    }

    #set(name, value) {
        const before = this.#cm.getOption(name);
        this.#cm.setOption(name, value);
        this.#ends.push(() => this.#cm.setOption(name, before));
    }

    #listen(name) {
        const calls = {
            beforeChange: (change) => this.#changes(change), change: (change) => this.#changed(change), changes: () => this.#edit(),
            cursorActivity: () => this.#moved(),
        };
        const called = (_, change) => calls[name](change);
        this.#cm.on(name, called);
        this.#ends.push(() => this.#cm.off(name, called));
    }

    // -- what is typed

    // (where it begins can be asked now; that it was made is heard later, once all of the command is)
    #changes(change) {
        if (this.#isShowing) return;
        this.#before ??= this.#places;
        const text = change.text.join('\n');
        // (only what others wrote has other line ends)
        if (change.origin === 'paste' && text.includes('\r')) change.update?.(change.from, change.to, text.split(LINE_ENDS));
        const { from, to } = change, isApart = [from, to].some(({ line, ch }) => LOW.test(this.#cm.getLine(line)?.[ch] ?? ''));
        this.#asked.push({ change, from, to, beg: isApart ? undefined : this.#cm.indexFromPos(from) });
    }

    #changed(made) {
        if (this.#isShowing) return;
        const isIt = ({ change, from, to }) => [from, change.from].every((place) => isAt(place, made.from)) &&
            [to, change.to].every((place) => isAt(place, made.to)) && `${change.text}` === `${made.text}`;
        const index = this.#asked.findIndex(isIt), beg = this.#asked[index]?.beg;
        this.#asked.splice(0, index + 1);
        const [was, is] = [made.removed.join('\n'), made.text.join('\n')];
        // (halves of pairs may be told apart; or another one made it another change)
        if (beg === undefined || PAIR.test(was + is)) this.#gathered.push({ isPlain: false });
        else if (made.origin === 'setValue') this.#gathered.push({ ...difference(was, is), isPlain: true, isWhole: true });
        else this.#gathered.push({ beg, end: beg + was.length, put: is, isPlain: true });
    }

    #edit() {
        const changes = this.#gathered;
        this.#asked = [];
        if (changes.length === 0) return;
        this.#gathered = [];
        let isSame = changes.every(({ isPlain }) => isPlain);
        try {
            this.#text.batch(() => {
                if (isSame) changes.forEach((change) => this.#splice(change));
                else this.#splice(difference(`${this.#text}`, this.#cm.getValue().replace(HALF, '\ufffd')));
            }, this);
        } catch (why) {
            isSame = false;
            this.#onError(why);
        } finally {
            this.#before = undefined;
        }
        if (!isSame) this.refresh();
        // (marks go with the characters that were there)
        else if (changes.some(({ isWhole }) => isWhole)) this.#marks.draw();
        this.#say();
    }

    #splice({ beg, end, put }) {
        if (beg < end) this.#text.delete(beg, end);
        if (put !== '') this.#text.insert(beg, put);
    }

    // -- what is shown

    #show(does) {
        this.#isShowing = true;
        try {
            this.#cm.operation(does);
        } finally {
            this.#isShowing = false;
        }
    }

    #told({ origin, delta }) {
        if (origin !== this) {
            const splices = splicesOf(delta);
            if (splices.length > 0) this.#put(splices);
            this.#cursors?.draw();
        }
        this.#marks.follow(delta);
    }

    // Puts strings into the editor; selections stay after the characters that they are after.
    #put(splices) {
        this.#show(() => {
            for (const { beg, end, put } of splices) this.#cm.replaceRange(put, this.#at(beg), this.#at(end), '+others');
            this.#select(this.#places, { scroll: false });
        });
    }

    #at(index) {
        return this.#cm.posFromIndex(index);
    }

    #select(places, options = /** @type {any} */ (undefined)) {
        const ranges = places.map(({ anchor, head }) => [anchor, head].map((place) => this.#text.position(place)));
        if (`${this.#ranges()}` === `${ranges}`) return;
        this.#cm.setSelections(ranges.map(([anchor, head]) => ({ anchor: this.#at(anchor), head: this.#at(head) })), undefined, options);
    }

    // Has the editor show what the text has, where it doesn't.
    refresh() {
        const was = this.#cm.getValue(), is = `${this.#text}`;
        if (was !== is) this.#put([difference(was, is)]);
        this.#marks.draw();
        this.#cursors?.draw();
    }

    // -- selections

    #ranges() {
        return this.#cm.listSelections().map(({ anchor, head }) => [anchor, head].map((place) => this.#cm.indexFromPos(place)));
    }

    // The selections, as places that stay.
    #selection() {
        return this.#ranges().map(([anchor, head]) => ({ anchor: this.#anchor(anchor), head: this.#anchor(head) }));
    }

    #anchor(place) {
        const at = Math.min(place, this.#text.length);
        try {
            return this.#text.anchor(at);
        } catch {
            // (within a pair)
            return this.#text.anchor(at - 1);
        }
    }

    #moved() {
        if (this.#isShowing || this.#gathered.length > 0) return;
        // (what was asked for wasn't done)
        [this.#asked, this.#before] = [[], undefined];
        this.#say();
    }

    // Knows where the cursor is now, and says it.
    #say() {
        this.#places = this.#selection();
        if (this.#presence === undefined) return;
        const [cursor] = this.#places, { state } = this.#presence;
        const now = { ...state, cursor, ...(this.#user === undefined ? {} : { user: this.#user }) };
        if (JSON.stringify(now) !== JSON.stringify(state)) this.#presence.set(now);
    }

    // -- undo

    #undone(undone) {
        if (undone === undefined) return;
        const { selection, end } = undone;
        if (selection !== undefined) this.#select(selection);
        else if (end !== undefined) this.#cm.setCursor(this.#at(end));
        this.#say();
    }

    #move(does) {
        this.#before = undefined;
        try {
            this.#undone(does());
        } catch (why) {
            this.#onError(why);
        }
    }

    undo() {
        this.#move(() => this.undoManager.undo());
    }

    redo() {
        this.#move(() => this.undoManager.redo());
    }

    close() {
        this.#cursors?.close();
        this.#marks.close();
        this.#ends.splice(0).reverse().forEach((end) => end());
    }
}
