// Remarks and suggestions: their cards in the margin, their stretches in the text, and what one does about them.
import { tell } from "./aloud.js";
import { Cards } from "./cards.js";
import { Draft } from "./drafts.js";
import { Margin } from "./margin.js";
import { shownName } from "./people.js";
import { made, plain } from "./shown.js";
import { Stretches } from "./stretches.js";
import { Suggesting } from "./suggesting.js";
import { Threads } from "./threads.js";

/** @type {(id: string) => any} */
const element = (id) => document.getElementById(id);
const MOST_NAMES = 200;
const AWAY = "There is no connection now, so nothing was done.";
const DONE = { reply: "Replied.", resolve: "Resolved.", reopen: "Open again.", reject: "Rejected.", accept: "Accepted.", revise: "Changed.",
  withdraw: "Taken back." };
// Below this width the margin is a sheet.
const NARROW = matchMedia("(max-width: 700px)");
// With Ctrl and Alt.
const LETTERS = { 77: "remark", 83: "suggest" };

export class Review {
  #editor;
  #ask;
  #askOf;
  #say;
  #settle;
  #stretches;
  #threads;
  #cards;
  #margin;
  #names = new Set();
  // Whether the user has shown the margin, or put it away.
  #isChosen = false;

  /** `ask` sends a request, and `askOf` one about places of the text, for an answer; `say` tells words; `settle` does what waits. */
  constructor(editor, { ask, askOf, say, settle }) {
    [this.#editor, this.#ask, this.#askOf, this.#say, this.#settle] = [editor, ask, askOf, say, settle];
    this.#stretches = new Stretches(editor, () => this.#threads.news());
    this.#threads = new Threads(editor, askOf, {
      came: () => this.#came(), isListed: () => this.isShown && this.#isList, kept: () => this.#cards.kept(),
    });
    this.#cards = new Cards(editor, this.#threads, this.#stretches, {
      looked: (card) => this.#comes(card.thread.id), does: (...words) => this.#does(...words), left: () => this.#leaves(), says: say,
    });
    this.#margin = new Margin(editor.cm, element("cards"), () => this.#cards.items(this.#isList));
    this.suggesting = new Suggesting(editor, (request) => this.#sends(request, true), (from, to, put) => {
      editor.cm.setSelection(from, to);
      this.#begins(true, put);
    });
    editor.cm.on("cursorActivity", () => this.#passes());
    document.addEventListener("keydown", (event) => this.#pressed(event), true);
    this.#binds();
  }

  #binds() {
    for (const what of ["remark", "suggest"]) element(what).addEventListener("click", () => this.#begins(what === "suggest"));
    element("suggesting").addEventListener("click", async () => { if (await this.#can()) this.suggesting.toggle(); });
    element("remarks").addEventListener("click", async () => { if (await this.#can()) this.#chooses(!this.isShown); });
    element("unmargin").addEventListener("click", () => this.#chooses(false));
    element("which").addEventListener("change", ({ target }) => this.#filters({ isOpenOnly: target.value === "open" }));
    element("whose").addEventListener("change", ({ target }) => this.#filters({ author: target.value }));
    element("as-list").addEventListener("click", ({ target }) => {
      target.ariaPressed = String(target.ariaPressed !== "true");
      this.#threads.news(0);
    });
    NARROW.addEventListener("change", () => this.#threads.news(0));
    element("cards").addEventListener("focusout", () => {
      this.#margin.soon();
      // What isn't among those that are asked for is marked only as long as somebody is at its card.
      if (this.#threads.kept.size) this.#threads.news(0);
    });
  }

  get isShown() {
    return !element("margin").hidden;
  }

  /** Whether something is written that isn't sent. */
  get hasWords() {
    return this.#cards.haveWords || this.suggesting.hasWords;
  }

  get #isList() {
    return NARROW.matches || element("as-list").ariaPressed === "true";
  }

  /** Whether the note has a margin; says so where it hasn't. */
  async #can() {
    if (!this.#threads.isKnown) await this.#threads.now();
    if (this.#threads.why) this.#say(this.#threads.why);
    return !this.#threads.why;
  }

  /** Shows the margin, or puts it away. */
  #chooses(shows) {
    this.#isChosen = true;
    this.#shows(shows);
    if (!shows) this.#editor.cm.focus();
  }

  #shows(shows) {
    element("margin").hidden = !shows;
    element("remarks").ariaPressed = String(shows);
    if (shows) this.#threads.news(0);
  }

  #filters(how) {
    Object.assign(this.#threads, how);
    this.#threads.news(0);
  }

  /** The note is opened, or opened again. */
  opened() {
    this.#threads.begin();
  }

  /** The engine says how many there are, and that some may be others than before. */
  counted({ all, open }) {
    element("remarks").textContent = all ? `Remarks ${open}` : "Remarks";
    element("counted").textContent = `${open} open of ${all}`;
    if (open && !this.#isChosen && !NARROW.matches) this.#shows(true);
    this.#threads.news();
  }

  #came() {
    const { inSight, list, kept } = this.#threads;
    const shown = [...inSight, ...kept.values()].filter((one) => one.begin !== undefined);
    this.#stretches.show(shown.map(({ id, begin, end, kind, state, gone, new: put }) => (
      { id, begin, end, className: `${kind} ${state}${gone ? " gone" : ""}`, put: state === "open" && kind === "suggestion" ? put : "" })));
    this.#lists([...inSight, ...list]);
    this.#margin.draw();
  }

  /** Lists the names of those who wrote, to choose one. */
  #lists(threads) {
    for (const { name } of threads) {
      if (!name || this.#names.has(name) || this.#names.size >= MOST_NAMES) continue;
      this.#names.add(name);
      element("whose").append(Object.assign(made("option", plain(shownName(name))), { value: name }));
    }
  }

  // What is looked at.

  #looks(it) {
    if (this.#cards.active === it) return;
    this.#cards.active = it;
    if (!this.#editor.composing.isOn) this.#stretches.lookAt(it);
    this.#margin.draw();
  }

  /** Somebody has come to a thread's card; of a list, the text follows. */
  #comes(id) {
    const isNew = this.#cards.active !== id;
    this.#looks(id);
    if (isNew && this.#isList) this.#scrollsTo(id);
  }

  /** The cursor has come to a place, whose thread is looked at then. */
  #passes() {
    if (!this.isShown || !this.#editor.cm.hasFocus() || this.#editor.composing.isOn) return;
    const [id] = this.#stretches.at(this.#editor.cm.getCursor());
    this.#looks(id);
    if (this.#isList) this.#cards.of(id)?.element.scrollIntoView({ block: "nearest" });
  }

  /** Scrolls to the stretch of a thread of the list. */
  async #scrollsTo(id) {
    const { cm, places } = this.#editor;
    const place = this.#stretches.placeOf(id)?.from ?? (await this.#threads.found(id))?.begin;
    if (place === undefined || this.#cards.active !== id) return;
    cm.scrollIntoView(typeof place === "number" ? places.at(place) : place, cm.getScrollInfo().clientHeight / 3);
  }

  /** Back to the text. */
  #leaves() {
    this.#editor.cm.focus();
  }

  #pressed(event) {
    const { keyCode, ctrlKey, metaKey, altKey, shiftKey } = event;
    const isElsewhere = element("sheets").hidden || document.querySelector("dialog[open]");
    if (!altKey || event.isComposing || event.getModifierState("AltGraph") || isElsewhere) return;
    const isDown = event.key === "ArrowDown";
    if ((ctrlKey || metaKey) && !shiftKey && keyCode in LETTERS) this.#begins(LETTERS[keyCode] === "suggest");
    else if (shiftKey && !ctrlKey && !metaKey && (isDown || event.key === "ArrowUp")) this.#goes(isDown);
    else return;
    event.preventDefault();
    event.stopPropagation();
  }

  /** Goes to the next thread, or the one before. */
  async #goes(forward) {
    if (!await this.#can()) return;
    this.#settle();
    this.#isChosen = true;
    if (!this.isShown) this.#shows(true);
    const { active } = this.#cards;
    const place = this.#stretches.placeOf(active)?.from ?? this.#editor.cm.getCursor(forward ? "to" : "from");
    const thread = await this.#threads.next(active, this.#editor.places.of(place), forward);
    if (thread) this.#goesTo(thread);
    else tell("There is no remark.");
  }

  /** Puts the cursor at a thread's stretch, and the keyboard on its card, as soon as that is there. */
  async #goesTo({ id, begin }) {
    const { cm, places } = this.#editor;
    cm.setCursor(places.at(begin), undefined, { scroll: false });
    cm.scrollIntoView(null, cm.getScrollInfo().clientHeight / 3);
    this.#looks(id);
    await this.#threads.now();
    this.#margin.draw();
    this.#cards.of(id)?.element.focus({ preventScroll: true });
  }

  // What is done.

  /** Begins a remark or a suggestion about what is selected, perhaps with what was typed already. */
  async #begins(isSuggestion, put = undefined) {
    this.#settle();
    const { cm } = this.#editor;
    // What is asked may take a while, and the cursor goes on meanwhile.
    const here = cm.markText(cm.getCursor("from"), cm.getCursor("to"), { className: "looked-at", clearWhenEmpty: false });
    if (!await this.#can()) {
      here.clear();
      return;
    }
    const draft = new Draft(this.#editor, here, isSuggestion, put, {
      sends: (...words) => this.#sends(...words), looked: () => this.#looks(draft), left: (_, isDone) => this.#puts(draft, isDone),
    });
    this.#cards.drafts.push(draft);
    this.#isChosen = true;
    this.#shows(true);
    this.#looks(draft);
    draft.focus();
  }

  /** Puts a draft away, where it is done or has no words, and goes back to the text, from where its user hasn't gone elsewhere meanwhile. */
  #puts(draft, isDone) {
    const { activeElement, body } = document;
    const wasHere = draft.element.contains(activeElement) || activeElement === body;
    if (isDone) {
      draft.clear();
      this.#cards.drafts = this.#cards.drafts.filter((one) => one !== draft);
      if (this.#cards.active === draft) this.#cards.active = undefined;
      this.#margin.draw();
    }
    if (wasHere) this.#leaves();
  }

  async #sends(request, isOther) {
    if (!isOther) {
      this.#say("That is what stands there already. ");
      return false;
    }
    const answer = await this.#askOf(request);
    if (!this.#isRight(answer)) return false;
    tell(request.do === "remark" ? "The remark is there." : "The suggestion is there.");
    await this.#threads.now();
    return true;
  }

  /** Does something with a record of a thread; whether that was done. */
  async #does(card, what, more) {
    const answer = await this.#ask({ do: what, ...more });
    if (answer.error === "changed") card.ask(answer);
    else if (this.#isRight(answer)) {
      tell(DONE[what]);
      this.#threads.news(0);
      return true;
    }
    return false;
  }

  #isRight(answer) {
    if (answer.error) this.#say(answer.words ?? AWAY);
    return !answer.error;
  }
}
