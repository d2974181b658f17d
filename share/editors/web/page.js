// The page of a note: it connects to the note's engine and shows the note.
import { Changes, isHeard } from "./aloud.js";
import { Client, hex } from "./client.js";
import { Editor, paste } from "./editor.js";
import { Finding } from "./finding.js";
import { Formatted } from "./formatted.js";
import { SIGN_KEYS } from "./graphemes.js";
import { Keys } from "./keys.js";
import { opensLinks } from "./links.js";
import { Notes } from "./notes.js";
import { Past } from "./past.js";
import { colourOf } from "./people.js";
import { Present } from "./present.js";
import { printsAll } from "./printing.js";
import { Refused } from "./refused.js";
import { Review } from "./review.js";
import { say, showState } from "./said.js";
import { Since } from "./since.js";
import { State } from "./state.js";
import { Unkept } from "./unkept.js";
import { Writers } from "./writers.js";

/* global CodeMirror */

const CURSOR_MS = 50;
// Each time this many lines wait, the page sends the engine its version.
const WAITING = 100;
const GO_ON = "Type on: what you type is kept in this page until then.";

/** @type {(id: string) => any} */
const element = (id) => document.getElementById(id);

export class Page {
  #connection;
  // The client of the engine; none until the first engine has opened the note. The next engine knows this editor by its name.
  #client;
  #editorName = crypto.randomUUID();
  // How often the note was begun to be opened.
  #openings = 0;
  #cursorTimer;
  #isRenamed = false;
  #state = new State(() => this.#unanswered);
  // The edits that the engine hasn't on its disk; undefined at a relay.
  #unkept;
  #connects;

  /** `connects` makes a connection to the engine, which calls the given functions. `lists` shows the user's other notes; this page has a
   * list of its own. */
  constructor(connects, lists = () => this.notes.show()) {
    this.#connects = connects;
    this.#connection = connects({
      came: (line) => this.#came(line),
      ended: (words) => this.#ended(words),
      isBusy: () => this.editor.composing.isOn,
      waits: (many) => this.#waits(many),
      settles: () => this.#settle(),
    });
    this.editor = new Editor(element("text"), {
      edit: (changes) => {
        this.#client?.edit(changes);
        this.#follows();
      },
      moved: () => this.#moved(), changed: (place) => this.changes.at(place),
      takes: (change) => this.review?.suggesting.takes(change),
    });
    const { cm } = this.editor;
    this.changes = new Changes(cm);
    this.keys = new Keys(cm, () => this.#client);
    this.refused = new Refused(this.editor);
    const ask = (request) => this.#ask(request);
    this.present = new Present(ask);
    const colourOfSite = (site) => this.present.colourOf(site);
    this.since = new Since(this.editor, (request) => this.#askOf(request, false), colourOfSite, () => this.#settle());
    this.past = new Past(ask, colourOfSite, { left: () => this.editor.show(), since: (at) => this.since.show({ at }) });
    this.finding = new Finding(cm, () => this.#settle());
    this.formatted = new Formatted(() => this.editor.text);
    this.writers = new Writers(this.editor, (begin, end) => this.#askOf({ do: "who", begin, end }, false), colourOfSite);
    this.review = new Review(this.editor, {
      ask: (request) => this.#ask(request, true), askOf: (request) => this.#askOf(request, true), say, settle: () => this.#settle(),
    });
    this.notes = new Notes((words) => this.#ask({ do: "notes", words }));
    opensLinks(cm);
    isHeard(cm, "Text of the note");
    printsAll(() => this.#printed());
    this.#bind(lists);
    this.#connection.open();
  }

  #bind(lists) {
    const { cm } = this.editor;
    this.#commands();
    cm.setOption("extraKeys", { ...SIGN_KEYS, "Ctrl-B": "bold", "Cmd-B": "bold", "Ctrl-H": "replace" });
    for (const command of ["undo", "redo", "bold", "find", "replace"]) {
      element(command).addEventListener("click", () => this.#does(command));
    }
    element("colour").addEventListener("change", ({ target }) => {
      this.#settle();
      this.#look({ colour: Number(target.value) });
      target.selectedIndex = 0;
      cm.focus();
    });
    element("history").addEventListener("click", () => this.past.show());
    element("notes").addEventListener("click", lists);
    element("format").addEventListener("click", () => this.formatted.toggle());
    element("writers").addEventListener("click", () => {
      this.#settle();
      this.writers.toggle();
    });
    element("name").addEventListener("change", () => this.#rename());
    // Text that is being composed is shown already.
    addEventListener("pagehide", () => {
      this.#settle();
      this.#client?.hurry();
    });
    addEventListener("beforeunload", (event) => {
      if (this.#unanswered || this.review.hasWords || this.refused.hasWords) event.preventDefault();
    });
    cm.on("paste", paste);
    cm.on("changes", () => this.formatted.changed());
    // The browser's own undo, of its menu, would take back letters that the note has already.
    cm.getInputField().addEventListener("beforeinput", (event) => {
      const own = { historyUndo: "undo", historyRedo: "redo", formatBold: "bold" }[event.inputType];
      if (!own) return;
      event.preventDefault();
      this.#does(own);
    });
  }

  #commands() {
    const { commands } = CodeMirror;
    for (const command of ["undo", "redo"]) {
      commands[command] = (cm) => {
        const isDropped = command === "undo" && this.review.suggesting.drops();
        if (cm === this.editor.cm && !isDropped) this.#ask({ do: command });
      };
    }
    commands.bold = () => this.#look({ bold: !this.editor.isBold() });
    const finds = { find: () => this.finding.open(false), replace: () => this.finding.open(true), replaceAll: () => this.finding.open(true),
      findNext: () => this.finding.again(true), findPrev: () => this.finding.again(false) };
    for (const [command, does] of Object.entries(finds)) {
      commands[command] = (cm) => (cm === this.editor.cm ? does() : CodeMirror.Pass);
    }
    // All is kept as it is typed.
    commands.save = () => {};
  }

  /** Does what waits: keys that are kept, and what the browser has and the text hasn't. */
  #settle() {
    this.keys.release();
    this.editor.composing.end();
  }

  #does(command) {
    this.#settle();
    this.editor.cm.focus();
    this.editor.cm.execCommand(command);
  }

  /** Make the selection bold, or give it a colour. */
  #look(looks) {
    const ranges = this.editor.selected();
    if (ranges.length) this.#client?.look(ranges, looks);
    else say("First select what is to look so. ");
  }

  async #ask(request, isQuiet = false) {
    this.editor.tell();
    return this.#client ? this.#client.ask(request, isQuiet) : { error: "away" };
  }

  /** Asks about places of the text. */
  async #askOf(request, isQuiet) {
    this.editor.tell();
    return this.#client ? this.#client.askOf(request, isQuiet) : { error: "away" };
  }

  /** Note that an edit was made, or answered. */
  #follows() {
    if (this.#client) this.#unkept?.keep(this.#client, this.editor.text);
    this.#state.follows();
  }

  /** The number of the user's edits that aren't known to be on the disk. */
  get #unanswered() {
    return this.#client?.unanswered ?? 0;
  }

  /** Return the view that is printed. */
  #printed() {
    if (!element("past").hidden) return this.past.cm;
    return this.formatted.isShown ? element("formatted") : this.editor.cm;
  }

  // The connection.

  #send(line) {
    this.#connection.send(line);
  }

  /** Lines wait until the user ends composing. */
  #waits(many) {
    if (many % WAITING === 0) this.#send({ do: "seen", version: this.#client?.version ?? 0 });
    this.editor.composing.hurry();
  }

  #came(line) {
    if (line.notice === "welcome") this.#open(line);
    else if (line.notice === "opening") showState(`reading, ${Math.floor((100 * line.done) / (line.of || 1))} %`);
    else if (line.answer === "open") this.#opened(line);
    else if (this.#client) this.#took(line);
    else if (line.words) say(line.words);
  }

  /** Take in a line. After a notice the unkept edits are written again, because they count in its version. */
  #took(line) {
    this.#client.take(line);
    if (this.#unanswered) this.#follows();
  }

  async #open({ name, missing, note }) {
    this.formatted.missing = missing;
    if (note && !this.#unkept) {
      this.#unkept = new Unkept(note, this.#connects, { refused: (...why) => this.refused.take(...why), say });
      this.#unkept.begin(this.#editorName);
    }
    element("name").value = sessionStorage.getItem("name") ?? name;
    this.#openings += 1;
    const number = this.#openings;
    const again = await this.#again();
    if (number !== this.#openings) return;
    this.#send({ do: "open", id: 0, protocol: 1, units: ["utf-16"], looks: true, remarks: true, name: element("name").value,
      editor: this.#editorName, ...(again && { again }) });
  }

  /** Return the field `again` for the next engine; undefined if no text is shown yet. */
  async #again() {
    if (!this.#client) return undefined;
    this.editor.tell();
    const [again, text] = [this.#client.again(), this.editor.text];
    const hash = await crypto.subtle.digest("SHA-256", new TextEncoder().encode(text));
    return { ...again, hash: hex(hash) };
  }

  #opened(line) {
    if (line.error) {
      showState(line.words, true);
      return;
    }
    document.title = line.note;
    element("note").textContent = line.note;
    for (const option of element("colour").options) option.style.color = colourOf(line.colours[option.value]);
    if (this.#client) {
      this.editor.tell();
      this.#client.back(line);
    } else {
      this.editor.replace(line.text);
      this.editor.looks([]);
      this.#client = new Client(line, (request) => this.#send(request), this.#view(line.colours));
    }
    this.#follows();
    this.#unkept?.looks();
    this.present.begin();
    this.review.opened();
    this.#moved();
  }

  #ended(words) {
    this.#openings += 1;
    this.editor.tell();
    this.#client?.away();
    this.editor.cursors([]);
    if (this.#isRenamed) {
      [this.#isRenamed, this.#client, this.#editorName] = [false, undefined, crypto.randomUUID()];
      this.#unkept?.begin(this.#editorName);
      return true;
    }
    showState(this.#client ? `${words} ${GO_ON}` : words, true);
    return false;
  }

  /** Close the note as soon as all is answered. It is opened again with the user's new name. */
  #rename() {
    sessionStorage.setItem("name", element("name").value);
    this.#settle();
    this.review.suggesting.end();
    this.editor.types = false;
    this.#isRenamed = this.#client !== undefined;
    this.#ask({ do: "close" });
  }

  // The view.

  #view(colours) {
    return {
      change: (changes, cursor) => this.editor.change(changes, cursor),
      replace: (text) => this.editor.replace(text),
      looks: (list) => this.editor.looks(list, colours),
      cursors: (list) => {
        this.editor.cursors(list);
        this.present.heard({ cursors: list.map(({ who, name, colour }) => [who, name, colour]) });
      },
      state: (line) => {
        this.editor.types = line.types;
        this.#state.is(line);
        this.present.heard({ on: line.on });
      },
      remarks: (line) => this.review.counted(line),
      say,
      refused: (words, changes, place) => this.refused.take(words, changes, place),
      answered: () => {
        this.#follows();
        if (!this.#unanswered) this.keys.release();
      },
    };
  }

  // The user's cursor.

  #moved() {
    if (this.#cursorTimer) return;
    this.#cursorTimer = setTimeout(() => {
      this.#cursorTimer = undefined;
      this.#client?.cursor(...this.editor.place());
    }, CURSOR_MS);
  }
}
