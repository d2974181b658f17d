import type { OpenOptions, Text } from './index.js';

/** A text that a page keeps in its browser's database. One page has it at a time: the error's code is `EAGAIN` otherwise, after five seconds. */
export class IndexedDBStore {
    private constructor();
    /** The text of this name, for its site to go on; one that isn't there is begun where the site is said. */
    static open(name: string, options?: OpenOptions): Promise<IndexedDBStore>;
    readonly text: Text;
    /** Comes once the database has all that the text holds now; what it can't keep it is given again. */
    kept(): Promise<void>;
    /** Keeps what there is, and closes the text. */
    close(): Promise<void>;
}
