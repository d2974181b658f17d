// The front page of a relay: makes notes, opens links, and lists the notes of this browser.
import { Trouble } from "./bytes.js";
import { byId, element, tell } from "./elements.js";
import { founded, noteOf } from "./founding.js";
import { NoteKeys, hasCiphers } from "./keys.js";
import { readLink } from "./link.js";
import { savedIn } from "./log.js";
import { Shown } from "./shown.js";
import { Store } from "./store.js";
import { keepVersion } from "./version.js";

// Where texts are shown, if the relay has what that needs.
const textPage = document.querySelector("meta[name=text]")?.getAttribute("content") ?? "";
const COLOURS = ["#c0392b", "#2471a3", "#1e8449", "#7d3c98", "#a04000", "#117a65"];
const relay = document.querySelector("meta[name=relay]")?.getAttribute("content") || location.origin;
const NO_CIPHERS = "This browser lacks Ed25519, by which notes are signed: nothing can be opened here. Chromium 137, Firefox 129, Safari 17 and "
  + "later have it.";
/** @type {Shown | null} */
let shown = null;
// One note after the other is shown, however quickly they are asked for.
let turn = Promise.resolve();

/** Does what a user asked for; what went wrong is said.
 * @param {() => Promise<unknown>} work */
function does(work) {
  work().catch((why) => {
    tell(why instanceof Trouble ? why.message : `This page has a fault: ${why}`);
    if (!(why instanceof Trouble)) throw why;
  });
}

/** @param {Store} store */
async function list(store) {
  const notes = await store.notes();
  byId("none").hidden = notes.length > 0;
  byId("list").replaceChildren(...notes.sort((one, other) => one.name.localeCompare(other.name)).map((note) => {
    const key = element("button", note.name);
    key.setAttribute("aria-current", String(note.id === shown?.id));
    key.addEventListener("click", () => does(() => show(store, note)));
    return element("li", key);
  }));
}

/** @param {Store} store @param {import("./store.js").Note} note */
function show(store, note) {
  turn = turn.catch(() => {}).then(async () => {
    shown?.close();
    shown = await Shown.of(store, note);
    await list(store);
    byId("title").focus();
  });
  return turn;
}

/** Goes to a note's text, where it can be shown; whether it can.
 * @param {string} id */
function goToText(id) {
  if (textPage) location.assign(`${textPage}#${id}`);
  return Boolean(textPage);
}

async function copy() {
  const field = byId("address");
  try {
    await navigator.clipboard.writeText(field.value);
    byId("copied").textContent = "The link is copied.";
  } catch {
    field.select();
    byId("copied").textContent = "Press Ctrl-C to copy the link.";
  }
}

/** Says where the browser may drop what is here; with `asks` it is asked to keep that.
 * @param {boolean} asks */
async function sayWhetherItLasts(asks) {
  const { storage } = navigator;
  const lasts = await storage?.persisted?.() || (asks && await storage?.persist?.());
  byId("lasting").textContent = lasts ? "This browser keeps your notes until you forget them, or have its data cleared."
    : "This browser may drop your notes when it lacks room, or after weeks without a visit. Keep their links, or saved files, elsewhere.";
}

/** Opens a note of which a file is here, whatever else is there of it.
 * @param {Store} store @param {File} file */
async function openFile(store, file) {
  const { link } = savedIn(new Uint8Array(await file.arrayBuffer()));
  if (!link) throw new Trouble(`${file.name} lacks the note's link. Open that first, and read the file there.`);
  await show(store, await taken(store, link, file.name.replace(/\.[^.]*$/, "")));
  // What is wrong with it is said here.
  await shown?.read(file);
  await sayWhetherItLasts(true);
}

/** @param {Store} store @param {string} given */
async function openLink(store, given) {
  const note = await taken(store, given);
  if (goToText(note.id)) return;
  await show(store, note);
  await sayWhetherItLasts(true);
}

/** Has a note be here to which a link leads, by this name if it is new.
 * @param {Store} store @param {string} given @param {string} [name] */
async function taken(store, given, name) {
  const { key, url } = await readLink(given, relay);
  if (url !== relay) throw new Trouble(`That note is at ${url}, and this page reaches ${relay} alone. Open its link there.`);
  const keys = await NoteKeys.of(key);
  const note = noteOf(keys, url, name || `Note ${(await store.notes()).length + 1}`);
  await store.add(note);
  return await store.note(note.id) ?? note;
}

/** @param {Store} store @param {string} name */
async function make(store, name) {
  const { note, entries } = await founded(relay, name || `Note ${(await store.notes()).length + 1}`);
  await store.add(note, entries);
  await show(store, note);
  await copy();
  await sayWhetherItLasts(true);
}

/** @param {Store} store */
async function showYou(store) {
  const you = await store.you();
  byId("your-name").value = you.name;
  // A colour that is shown to others is kept.
  if (!you.colour) await store.setYou({ ...you, colour: COLOURS[Math.floor(Math.random() * COLOURS.length)] });
  byId("your-colour").value = (await store.you()).colour;
  byId("you").addEventListener("change", () => does(
    async () => {
      await store.setYou({ name: byId("your-name").value.trim(), colour: byId("your-colour").value });
      shown?.isCalled();
    }));
}

/** @param {Store} store */
function listen(store) {
  /** @param {string} id @param {string} kind @param {(event: any) => Promise<unknown>} work */
  const on = (id, kind, work) => byId(id).addEventListener(kind, (/** @type {Event} */ event) => {
    if (kind === "submit") event.preventDefault();
    does(() => work(event));
  });
  on("make", "submit", async () => {
    const name = byId("name").value.trim();
    byId("name").value = "";
    await make(store, name);
  });
  on("open", "submit", async () => {
    const given = byId("link").value;
    byId("link").value = "";
    await openLink(store, given);
  });
  on("saved-note", "change", async ({ target }) => {
    const [file] = target.files;
    if (file) await openFile(store, file);
    target.value = "";
  });
  on("you", "submit", async () => {});
  on("copy", "click", copy);
  on("text", "click", async () => goToText(shown?.id ?? ""));
  on("save", "click", async () => shown?.save());
  on("saved", "change", async ({ target }) => target.files[0] && shown?.read(target.files[0]));
  on("rename", "click", async () => {
    await shown?.rename();
    await list(store);
  });
  on("forget", "click", async () => {
    if (!await shown?.forget()) return;
    shown = null;
    await list(store);
  });
  // A link that is put into the address of this page while it is open.
  addEventListener("hashchange", () => {
    const given = location.hash;
    history.replaceState(null, "", location.pathname);
    if (given.length > 1) does(() => openLink(store, given.slice(1)));
  });
}

async function begin() {
  const { given } = /** @type {any} */ (globalThis);
  /** @type {any} */ (globalThis).given = "";
  byId("relay").textContent = relay.replace(/^https?:\/\//, "");
  if (!isSecureContext) throw new Trouble("This page works by https:// alone.");
  if (!await hasCiphers()) throw new Trouble(NO_CIPHERS);
  const store = await Store.open((words) => {
    tell(words);
    // Another tab may have what this one can't keep any more.
    shown?.close();
    shown = null;
  });
  await showYou(store);
  listen(store);
  await list(store);
  await sayWhetherItLasts(false);
  byId("front").hidden = false;
  byId("text").hidden = !textPage;
  byId("no-text").hidden = Boolean(textPage);
  does(() => keepVersion(import.meta.url, does));
  if (given.length > 1) await openLink(store, given.slice(1));
  else await showLast(store);
}

/** Shows the note again whose text was left in this tab.
 * @param {Store} store */
async function showLast(store) {
  const id = sessionStorage.getItem("note");
  sessionStorage.removeItem("note");
  const note = id && await store.note(id);
  if (note) await show(store, note);
}

does(begin);
