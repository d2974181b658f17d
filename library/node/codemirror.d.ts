import type { Anchor, Presence, Text, UndoManager, UndoOptions } from './index.js';

/** A place in the text, and the other end of what is selected. */
export interface Selection {
    anchor: Anchor;
    head: Anchor;
}

/** What the binding says by way of presence, and reads of others. */
export interface Cursor {
    cursor?: Selection;
    user?: { name?: string; colour?: string };
}

export interface BindingOptions {
    /** Says where the cursor is, and shows others'. What else its state has stays. */
    presence?: Presence<any>;
    /** Who it says one is; the colour is as `#0060c0`. */
    user?: { name?: string; colour?: string };
    undo?: Omit<UndoOptions<Selection[]>, 'origins'>;
    /** What is called where an edit is refused, or isn't kept; unless it is given that is thrown in a task of its own. The editor shows what
     * the text has then. */
    onError?: (why: unknown) => void;
}

/** A text in an editor of CodeMirror 5. The text has `units: 'utf-16'`. Until `close` it sets `lineSeparator` to "\n" and `undoDepth` to 0, and
 * the editor's `undo` and `redo` take back what was done in it alone. Others' carets have the class `vialshoal-caret`, what they select
 * `vialshoal-selection`, and 20,000 stretches that aren't plain `vialshoal-looks`: bold or slanted as the letters after a font's size say
 * (Oberon10b.Scn.Fnt), coloured, so many pixels above the line. What is typed is plain; undo takes no looks back. */
export class CodeMirrorBinding {
    constructor(text: Text, editor: any, options?: BindingOptions);
    readonly text: Text;
    readonly undoManager: UndoManager<Selection[]>;
    /** Others' cursors that are shown, by their ids of presence. */
    readonly cursors: Map<string, { anchor: number; head: number; name: string; colour: string }>;
    undo(): void;
    redo(): void;
    /** Has the editor show what the text has, where it doesn't, and others' cursors. */
    refresh(): void;
    close(): void;
}
