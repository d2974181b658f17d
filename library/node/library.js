// What the package has, wherever it runs.
export { Backlog } from './backlog.js';
export { Damaged, FrontsDiffer, Refused } from './errors.js';
export { mergeChunks } from './merging.js';
export { Note, NoteText } from './note.js';
export { Presence } from './presence.js';
export { Past, Shown, Text } from './text.js';
export { UndoManager } from './undo.js';
