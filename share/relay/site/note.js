// The page of a note's text at a relay: the page of a local engine, with the note itself in the place of that.
import { Page } from "../../editors/web/page.js";
import { showState } from "../../editors/web/said.js";
import { Trouble } from "./bytes.js";
import { Core } from "./core.js";
import { NoteKeys } from "./keys.js";
import { Source } from "./source.js";
import { Store } from "./store.js";
import { keepFirst } from "./version.js";

const FORGOTTEN = "This note isn't in this browser. Its link opens it again.";

/** Goes to the front page, which shows what else there is of the note. */
function leave() {
  location.assign("/");
}

async function begin() {
  const store = await Store.open((words) => showState(words, true));
  const note = await store.note(location.hash.slice(1));
  if (!note) throw new Trouble(FORGOTTEN);
  const [keys, core] = await Promise.all([NoteKeys.of(note.key), Core.of(new URL("./vialshoal.wasm", import.meta.url))]);
  // Firefox asks its user, who may take long to answer, or never do.
  void navigator.storage?.persist?.().catch(() => {});
  sessionStorage.setItem("note", note.id);
  sessionStorage.removeItem("name");
  /** @type {Source | undefined} */
  let source;
  new Page((/** @type {import("./source.js").Told} */ told) => {
    source = new Source(told, core, store, keys, note);
    return source;
  }, leave);
  // Whoever came by a link has left the front page before that kept all. Where it can't be kept the note is shown all the same.
  if (navigator.serviceWorker && !navigator.serviceWorker.controller) void keepFirst(location.href).catch(() => {});
  addEventListener("pagehide", () => source?.close());
  // A page that comes back as it was has let the note go.
  addEventListener("pageshow", ({ persisted }) => { if (persisted) location.reload(); });
  addEventListener("hashchange", () => location.reload());
}

begin().catch((why) => {
  showState(why instanceof Trouble ? why.message : `This page has a fault: ${why}`, true);
  if (!(why instanceof Trouble)) throw why;
});
