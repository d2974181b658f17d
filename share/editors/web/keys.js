// Typing without a pause must not hold back what others type: while the client waits for an answer, keys are kept, and then
// done in their order.
import { PATIENCE_MS } from "./client.js";

/* global CodeMirror */

const MODIFIERS = new Set(["Shift", "Control", "Alt", "AltGraph", "Meta", "CapsLock"]);
// What isn't a key comes after the keys that are kept.
const OTHERS = ["mousedown", "paste", "cut", "drop", "dragstart"];

/** Whether a key types the character that it has. */
function types(event) {
  const isPlain = !event.ctrlKey && !event.metaKey && !event.altKey;
  return [...event.key].length === 1 && (isPlain || event.getModifierState("AltGraph"));
}

export class Keys {
  #kept = [];
  #timer;
  #cm;
  #client;

  /** `client` gives the client of the moment, or none. */
  constructor(cm, client) {
    this.#cm = cm;
    this.#client = client;
    cm.on("keydown", (_, event) => this.#pressed(event));
    for (const kind of OTHERS) cm.on(kind, () => this.release());
    cm.getInputField().addEventListener("compositionstart", () => this.release());
  }

  /** Does what was kept. */
  release() {
    clearTimeout(this.#timer);
    const kept = this.#kept;
    this.#kept = [];
    for (const does of kept) does();
  }

  #pressed(event) {
    if (MODIFIERS.has(event.key) || event.isComposing) return;
    if (!this.#kept.length && !this.#client()?.waits()) return;
    const does = this.#doing(event);
    if (does) {
      event.preventDefault();
      this.#keep(does);
    } else {
      this.release();
    }
  }

  #keep(does) {
    if (!this.#kept.length) {
      this.#timer = setTimeout(() => {
        this.#client()?.gaveUp();
        this.release();
      }, PATIENCE_MS);
    }
    this.#kept.push(does);
  }

  /** What a key does in the editor; null where that is the browser's to say. */
  #doing(event) {
    if (this.#cm.isReadOnly()) return null;
    if (types(event)) return () => this.#cm.replaceSelection(event.key, "end", "+input");
    const name = CodeMirror.keyName(event);
    let found = null;
    for (const map of this.#maps()) {
      const how = name && CodeMirror.lookupKey(name, map, (bound) => {
        found = bound;
        return true;
      }, this.#cm);
      if (how) break;
    }
    return found === null ? null : () => this.#does(found);
  }

  #maps() {
    return [.../** @type {any} */ (this.#cm).state.keyMaps, this.#cm.getOption("extraKeys"), this.#cm.getOption("keyMap")].filter(Boolean);
  }

  #does(bound) {
    if (typeof bound === "string") this.#cm.execCommand(bound);
    else bound(this.#cm);
  }
}
