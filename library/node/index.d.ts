/** Texts that sites edit and merge. A text is bytes, and positions and lengths count these; with `units: 'utf-16'` they count
 * UTF-16 units, as those of strings do, and a byte that is of no character is one unit, which is shown as U+FFFD. */

/** A text refused what it was asked: `code` and `number` say why (docs/FORMATS.md, "Refusals"), `message` in words. `messages` are
 * those of the part of an edit that stands, and `done` is how many operations of a chunk were handed in, which stand; mostly
 * nothing does. */
export class Refused extends Error {
    readonly code: string;
    readonly number: number;
    readonly messages: Buffer[];
    readonly done: number;
}

/** A site has made operations elsewhere that aren't those here: up to the number `seq` others (`CONFLICT`), or `seq`, which isn't here
 * (`BEHIND`). Its file was copied, or an older one put back, and both went on: one of them has to go on as another site. */
export class FrontsDiffer extends Refused {
    readonly site: number;
    readonly seq: number;
}

/** The file of a text, or of a note, was changed by something else, or cut off. Nothing is done with it. */
export class Damaged extends Error {
    readonly code: 'DAMAGED';
}

/** What is thrown where a call is given what no text can have, and nothing was done: `code` is `OUT_OF_TEXT`, `NO_NAME`,
 * `NO_NUMBER`, `TOO_LONG` (each a RangeError), `NOT_OPEN` or `STILL_NOTED`. An argument of another type is a TypeError without
 * a code. */
export type Misused = (RangeError | TypeError) & { readonly code: string; readonly number: number };

/** What became of a message, and of those that waited for it. */
export interface Taking {
    kind: 'taken' | 'repeat' | 'waits';
    drained: number;
    dropped: number;
    stopped: boolean;
}

/** How many messages that waited were taken in, and how many thrown away. */
export interface Settling {
    drained: number;
    dropped: number;
    stopped: boolean;
}

/** What became of a chunk's operations: how many were taken in, those that had waited among them; how many are held already, or
 * wait already; how many were put among those that wait. And whether taking in what waited ended early. */
export interface Unpacking {
    taken: number;
    known: number;
    waiting: number;
    stopped: boolean;
}

/** The lasting name of a character. */
export interface Name {
    site: number;
    offset: number;
}

/** The names of neighbouring characters: a site, an offset, and how many from there on. */
export interface NameRange {
    site: number;
    offset: number;
    length: number;
}

/** How many bytes, or units, are this character or stand before it, and whether it is shown itself. */
export interface Place {
    pos: number;
    isShown: boolean;
}

/** A place in a text that stays with the character before it (side -1) or after it (1), wherever that goes; of site 0 it is the text's
 * begin or end. It can be sent as JSON. */
export interface Anchor extends Name {
    side: -1 | 1;
}

/** A change of what is shown. The range is that of the text after an insertion, else of the text before. */
export interface Change {
    kind: 'insert' | 'delete' | 'replace';
    beg: number;
    end: number;
}

/** What is done to a text, from its begin on: `retain` units stay, perhaps in other looks; `delete` units go; `insert` is put in, a
 * string where the text's units are UTF-16, else bytes, in the default looks where it has none. What no step reaches stays. */
export type Delta = Step[];
export type Step =
    | { retain: number; looks?: Required<Looks> }
    | { delete: number }
    | { insert: string | Buffer; looks?: Required<Looks> };

/** What edits did that were made here (`own`), or that others made, with the origin that `batch` was given. */
export interface Done {
    delta: Delta;
    own: boolean;
    origin: unknown;
}

/** The same of one call, and the messages that it made. The delta is empty where nothing of what is shown changed. Messages that a file
 * couldn't keep come with the first edit after they are kept. */
export interface Edit extends Done {
    messages: Buffer[];
}

/** How many bytes are deleted, from 0 on, and how many inserted at 0 then. */
export interface Replacement {
    deleted: number;
    inserted: number;
}

/** A range of characters that look alike, as far as it goes. */
export interface Run {
    beg: number;
    end: number;
    font: string;
    colour: number;
    offset: number;
}

/** What characters look like. What isn't given stays, or of an insertion is the default: Oberon10.Scn.Fnt, 1, 0. A run is such
 * looks as well. */
export interface Looks {
    font?: string;
    colour?: number;
    offset?: number;
}

export interface Options {
    /** What positions and lengths count; bytes where it isn't said. */
    units?: 'bytes' | 'utf-16';
}

export interface OpenOptions extends Options {
    /** The number of the text, 1 where it isn't said of a new one. */
    text?: number;
    /** The site; a file that isn't there is begun where it is said. */
    site?: number;
}

export interface StoreOptions {
    /** Whether the file is packed: a byte for most keystrokes where the other form has some 50. A text of more than 4,194,304
     * operations is refused then (13). */
    packed?: boolean;
}

/** How far the operations of sites go, each a site and the number of the last that is meant; a site that isn't named has the
 * front 0. What `fronts` answers is such; so is another text's `state`, which is checked. */
export type Fronts = Iterable<readonly [site: number, seq: number]> | Uint8Array;

declare global {
    interface SymbolConstructor {
        readonly dispose: unique symbol;
    }
}

/** What a text shows, now (a `Text`) or as it was (a `Past`), to be read. */
export abstract class Shown {
    protected constructor();
    /** Frees it; all other calls are refused after this. What is dropped instead is freed by the collector, which knows how much memory
     * it holds, between turns of the event loop. */
    close(): void;
    /** The same, for `using`. */
    [Symbol.dispose](): void;
    readonly length: number;
    /** What positions and lengths count. */
    readonly units: 'bytes' | 'utf-16';
    /** The bytes of a range. */
    bytes(beg?: number, end?: number): Buffer;
    /** The range as a string. */
    slice(beg?: number, end?: number): string;
    toString(): string;
    /** What the characters of a range look like; one of more bytes as its first one does. */
    runs(beg?: number, end?: number): Run[];
    /** The names of the bytes of a range; with `units: 'utf-16'` of each character that of its first byte. */
    names(beg: number, end: number): Name[];
    /** The names of all bytes of a range, in stretches, as `deleteNames` takes them. */
    nameRanges(beg: number, end: number): NameRange[];
    find(name: Name): Place;
    /** A place that stays, and where it is now. */
    anchor(pos: number, side?: -1 | 1): Anchor;
    position(anchor: Anchor): number;
}

/** A site's replica of a text. Edits answer the messages that they made, which other sites' texts take. */
export class Text extends Shown {
    constructor(text: number, site: number, options?: Options);
    /** The number of the text, which it has at all sites, and that of the site. */
    readonly number: number;
    readonly site: number;
    /** The text of a file that `store` answered, packed or not, at its site. No edit may have been made since it was
     * stored. */
    static load(file: Uint8Array, options?: Options): Text;
    /** The text that is kept in a file, for its site to go on; in Node alone. The Python package has the same files. Each call that
     * changes the text has the disk keep what it changed before it answers. One that can't throws the system's error; what it made is
     * kept and handed out by the next one that can. What waits isn't kept. `close` closes the file.
     *
     * A file is open once at a time (an error with the code `EAGAIN`). `Damaged` is thrown where something else has changed it, and
     * `FrontsDiffer` by a call that is given what the site has made elsewhere: the file was copied, and both went on. */
    static open(path: string, options?: OpenOptions): Text;
    /** Has the file have all that the text holds, where a call couldn't, and answers the messages that weren't handed out. */
    keep(): Buffer[];
    /** What stood in the file behind all that was kept whole, as it was opened: the begin of what a program was about to keep when it
     * ended. Nobody was told that this is kept, unless the disk lost something. */
    readonly torn: Buffer;
    /** The text as a file, with all that was taken in, from which its site goes on. */
    store(options?: StoreOptions): Buffer;
    /** The text as an Oberon text file: its characters and their looks, and nothing of who wrote them (docs/FORMATS.md, "Text
     * files"). A text of more than 1,048,576 bytes is refused (13). */
    save(): Buffer;
    /** Puts bytes, or a string as UTF-8, after a position, in these looks or the default ones. A position within a pair of
     * surrogates is refused as one outside the text is, here and elsewhere. */
    insert(pos: number, data: Uint8Array | string, looks?: Looks): Buffer[];
    delete(beg: number, end: number): Buffer[];
    changeLooks(beg: number, end: number, looks: Looks): Buffer[];
    /** Shows again what `delete` took out last. */
    restore(): Buffer[];
    /** Puts a copy of what `delete` took out last after a position. */
    recall(pos: number): Buffer[];
    /** Deletes the characters of these names that are shown, wherever they stand, by one message at most. */
    deleteNames(names: Iterable<NameRange>): Buffer[];
    /** Shows the characters of these names again, each at its own place, by one message at most. */
    restoreNames(names: Iterable<NameRange>): Buffer[];
    take(message: Uint8Array): Taking;
    /** Takes the operations of a chunk in, one after the other, or lets them wait for what they build on. Where one is refused
     * those before it stand, as many as the refusal's `done` says. */
    unpack(chunk: Uint8Array): Unpacking;
    settle(): Settling;
    /** Throws away what waits, and answers how many messages it was. */
    forget(): number;
    /** Takes in all that another text holds, and answers how many of its operations were new. */
    merge(other: Text): number;
    readonly waiting: number;
    /** How many of a site's operations were taken in. */
    front(site: number): number;
    /** How many operations of each site were taken in, by the sites that have some. */
    fronts(): Map<number, number>;
    /** The messages of what was taken in past these fronts, in the order of taking: they bring a text that has the operations
     * up to the fronts to what this one has. The fronts are read at once, and the messages one by one: what is taken in
     * between two steps comes as well, last. So when the iterator ends, it gave all that this text has by then. */
    since(fronts: Fronts): IterableIterator<Buffer>;
    /** What was taken in past these fronts, in chunks of 16,000 bytes at most, none where that is nothing: to unpack all, in this
     * order, does what taking the messages of `since` does. They have a byte for most keystrokes where messages have some 50. */
    pack(fronts?: Fronts): Buffer[];
    /** How far this text is, as bytes to be sent: its fronts, and a hash of each site's operations up to its front. */
    state(): Buffer;
    /** The fronts that another text's state says. `FrontsDiffer` where that has other operations than this one, as far as this one
     * has as many of a site, or more of this site's own. */
    check(state: Uint8Array): Map<number, number>;
    /** The text as it was, up to these fronts. */
    past(fronts: Fronts): Past;
    /** What makes the text as it was up to some fronts what it was up to others, or is now. */
    diff(from: Fronts, to?: Fronts): Delta;
    /** The text, or what it was up to some fronts, at another site, which nobody may be yet. */
    copy(site: number, options?: Options & { at?: Fronts }): Text;
    /** What changed of what is shown since this was called last, one after the other; in UTF-16 units the first call has one insertion
     * of all. */
    changes(): Change[];
    /** Calls a listener after each edit that is made or taken in, once a call, or once for a `batch`; ended by the call that it answers.
     * What a listener edits is told after what it was called with; what it throws is thrown in a task of its own. */
    subscribe(listener: (edit: Edit) => void): () => void;
    /** What was done since this was called last, own edits and others' apart, in order; at first the text as it is then, as one
     * insertion. */
    delta(): Done[];
    /** Calls that are one change: listeners are called once, with this origin, or once for own edits and once for others'. Edits
     * answer no messages meanwhile; the batch answers all that was made and taken in, in chunks. Where it throws, what was done
     * stands, and the error has these chunks as `messages`. One within another is a part of that. */
    batch(calls: () => void, origin?: unknown): Buffer[];
    /** As `insert`, and answers chunks of 16,000 bytes at most in place of messages. */
    paste(pos: number, data: Uint8Array | string, looks?: Looks): Buffer[];
    /** Ends the noting of changes, for good: those that weren't told are let go with their memory, which grows as others change the
     * text and `changes` isn't called; `changes` has none from now on. `shown` is how many bytes the caller shows, and
     * `replacement` goes on from there. With `units: 'utf-16'` positions are found by the changes, and it is a TypeError. */
    endNoting(shown?: number): void;
    /** Where noting has ended: what was reported last gives way to what is shown, which is reported by that. */
    replacement(): Replacement;
}

/** A text as it was, up to fronts: what of the operations within them can be taken in, which leaves out one that builds on an
 * operation past them. It takes as long as taking these operations in, and is a copy that stays as it is, also when the text
 * is closed. It counts what its text counts. */
export class Past extends Shown {
    constructor(text: Text, fronts: Fronts);
    constructor(text: NoteText, fronts: Iterable<readonly [site: number, seq: number]>);
}

/** The head of an entry of messages: its author's key, the hash of the message before its first one, or zeros, the number of its first
 * message and how many it has, the site and the text (docs/NOTES.md). */
export interface Head {
    author: Uint8Array;
    before: Uint8Array;
    first: number;
    count: number;
    site: number;
    text: number;
}

/** An entry of messages, as whoever opened it has it. */
export interface Entry {
    head: Head;
    body: Uint8Array;
}

/** What a note begins with: the key of its hashes, the founder's key and number, and what was copied into it, as chunks, with the key of
 * its hashes and the hash of its last message. */
export interface Founding {
    key: Uint8Array;
    founder: Uint8Array;
    number?: number;
    base?: Iterable<Uint8Array>;
    baseKey?: Uint8Array;
    root?: Uint8Array;
}

export interface OpenNoteOptions extends Founding {
    site: number;
}

/** A note as one site has it. It decides which messages of the entries that it is given count, and its texts show that and own edits; notes
 * of one founding that were given the same entries, in any order, show the same. What seals, signs and carries entries is the caller's. */
export class Note {
    constructor(site: number, founding: Founding);
    /** The note that is kept in a file, which is begun where it isn't there; in Node alone. The Python package has the same files. `update` and
     * `say` have the disk keep what came, and what is said, before that counts. One that can't throws the system's error; nothing of it is
     * shown or said then, and the next one that can keeps it. Own edits that weren't said aren't kept. `close` closes the file.
     *
     * A file is open once at a time (an error with the code `EAGAIN`). It is a RangeError where the file is another note's, and `Damaged`
     * where something else has changed it. */
    static open(path: string, options: OpenNoteOptions): Note;
    readonly site: number;
    /** Frees it; all other calls are refused after this, those of its texts too. */
    close(): void;
    [Symbol.dispose](): void;
    /** A claim of a number came; its rank is the hash that was searched for. It counts after the next `update`. */
    claim(author: Uint8Array, site: number, rank: Uint8Array): void;
    /** An entry came, perhaps again, or an own one. It counts after the next `update`. */
    add(entry: Entry): void;
    /** Has the texts show what counts of all that came. Own edits that `say` didn't answer are taken back. */
    update(): void;
    /** Entries, by an author who holds the site's number, that say all own edits which weren't said. They count here from now on: seal, sign,
     * keep and send them. Where memory is refused, or a file can't keep them, the next call answers them. */
    say(author: Uint8Array): Entry[];
    /** The entries of messages that the file has, in their order: whoever opens a note sends those of them that others lack, since a program
     * may end before it has sent what it said. It is a TypeError where the note is kept in no file. */
    kept(): Entry[];
    /** One of its texts, 1 to 16. Changes are told once, to the first that asks for them, as whatever counts UTF-16 units does: it is a
     * TypeError where another one does, too. */
    text(number?: number, options?: Options): NoteText;
}

/** A text of a note: what counts, and own edits, which are shown at once and are to be said by `say` of the note. */
export class NoteText extends Shown {
    constructor(note: Note, number: number, options?: Options);
    readonly number: number;
    /** Looks that aren't the default ones are an edit of their own, after it. */
    insert(pos: number, data: Uint8Array | string, looks?: Looks): void;
    delete(beg: number, end: number): void;
    changeLooks(beg: number, end: number, looks: Looks): void;
    deleteNames(names: Iterable<NameRange>): void;
    restoreNames(names: Iterable<NameRange>): void;
    /** How many of a site's operations are shown, and of each site. */
    front(site: number): number;
    fronts(): Map<number, number>;
    past(fronts: Iterable<readonly [site: number, seq: number]>): Past;
    /** What changed of what is shown since this was called last, own edits too. Where the text was begun anew, since messages no longer count
     * that did, all of it gives way to all of it. */
    changes(): Change[];
}

/** What `undo` and `redo` did: what is to be sent; the selection of before the edit that was taken back, or done again; and where the
 * text changed, if it did. */
export interface Undone<S> {
    chunks: Buffer[];
    selection: S | undefined;
    beg: number | undefined;
    end: number | undefined;
}

export interface UndoOptions<S> {
    /** The origins whose edits are meant; where it isn't said all but those of other managers. */
    origins?: Iterable<unknown>;
    /** Within how many milliseconds edits are one, 500 where it isn't said. */
    captureTime?: number;
    /** The selection of before an edit that was made just now. Anchors stay right. */
    selection?: () => S;
    now?: () => number;
}

/** Takes edits of insertions and deletions back, and does them again, by the characters' names: what others wrote stays, and what they
 * deleted. Looks aren't taken back. Names of edits before it was made aren't known. */
export class UndoManager<S = unknown> {
    constructor(text: Text, options?: UndoOptions<S>);
    readonly canUndo: boolean;
    readonly canRedo: boolean;
    /** Takes the last edit back that still does something, if there is one. */
    undo(): Undone<S> | undefined;
    redo(): Undone<S> | undefined;
    /** Has the next edit not be one with the last. */
    stopCapturing(): void;
    clear(): void;
    /** Calls a listener when what can be taken back changes. */
    subscribe(listener: (manager: UndoManager<S>) => void): () => void;
    close(): void;
}

/** Who is there, and where: what each says of itself, as JSON, until it leaves or isn't heard of for `timeout` milliseconds (30,000).
 * Each has an id of 64 bits of its own, in hex, since a site may be in two windows. Call `tick` every few seconds. */
export class Presence<S extends object = Record<string, unknown>> {
    constructor(options?: { id?: string; timeout?: number; now?: () => number });
    readonly id: string;
    readonly state: S | null;
    /** Says something of oneself, or by null that one leaves, and answers what is to be sent. */
    set(state: S | null): Buffer;
    /** The states of those who are there, oneself too, by their ids. */
    states(): Map<string, S>;
    /** What is known of some, or of all, for one who comes. */
    encode(ids?: Iterable<string>): Buffer;
    /** Says of others that they left, as one sees it by whom they were heard, and answers what is to be sent. */
    leave(ids: Iterable<string>): Buffer;
    /** Takes in what others sent, and answers the ids of whose states changed. Other bytes are `Refused`. */
    take(bytes: Uint8Array): string[];
    /** Lets those go who weren't heard of, and answers what is to be sent, if it is time to. */
    tick(): Buffer | undefined;
    /** Calls a listener with the ids of those whose states changed. */
    subscribe(listener: (changed: string[]) => void): () => void;
}

/** Chunks that have all operations of these, each once, in an order in which a text takes them: for a store or a server that has no text. Of
 * each site only what is past a front. Refused where bytes are no chunk, chunks are of two texts, or one identity has two operations. */
export function mergeChunks(chunks: Iterable<Uint8Array>, past?: Iterable<readonly [site: number, seq: number]>): Buffer[];

/** Takes chunks and messages in, in whatever order they come: what comes before what it builds on is kept, `most` bytes of it (64 MiB),
 * where a text alone lets 64 operations wait. All that others made goes by way of it. */
export class Backlog {
    constructor(text: Text, options?: { most?: number });
    /** How many chunks and messages are kept. */
    readonly length: number;
    /** Answers how many operations were taken in, how much is kept then, and the refusals of what was kept before. */
    take(bytes: Uint8Array): { taken: number; kept: number; refused: Refused[] };
}
