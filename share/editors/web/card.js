// The card of a thread in the margin: what was said, and what one does about it. All of it is words of others, so nothing but text.
import { nameOf } from "./people.js";
import { Form } from "./forms.js";
import { button, isolated, made, plain, plainText, short, when } from "./shown.js";

const STATES = { resolved: "resolved", rejected: "rejected", accepted: "accepted", taken: "taken back" };
const MOST_SAID = 100;
// So much is shown of a card that isn't looked at.
const MOST_GLIMPSE = 300;

const isTaken = (record) => Boolean(record.taken) || record.state === "taken";

/** A name that is shown in the midst of words. */
function nameIn(record) {
  return isolated(plain(nameOf(record)), "name");
}

/** Who said something, and when. */
function headOf(record, ...more) {
  const [head, time] = [made("p", "", "head"), made("time", when(record.time))];
  head.append(nameIn(record), " ", time, ...more);
  if (record.revised) head.append(" ", made("small", "edited"));
  return head;
}

/** What was said. */
function bodyOf(record, isWhole) {
  const line = made("p", "", "body");
  line.dir = "auto";
  if (isTaken(record)) line.append(made("i", "taken back"));
  else line.append(isolated(isWhole ? plain(record.body) : short(plain(record.body), MOST_GLIMPSE)));
  return line;
}

/** What a suggestion would change. */
function changeOf({ kind, text, new: put, state }, isWhole) {
  if (kind !== "suggestion" || state === "taken") return [];
  const line = made("p", "", "change");
  const words = (it) => (isWhole ? plainText(it) : short(plainText(it), MOST_GLIMPSE));
  const [gone, came] = [made("del", words(text ?? "")), made("ins", words(put ?? ""))];
  if (text) line.append(made("span", "Delete: ", "unseen"), gone);
  if (text && put) line.append(" ");
  if (put) line.append(made("span", text ? "and put: " : "Put: ", "unseen"), came);
  return [line];
}

/** What is to be known of where a thread stands. */
function placeOf({ elsewhere, gone, text, kind }) {
  if (!elsewhere && !gone) return [];
  const line = made("p", elsewhere ? "Its text isn't here" : "Its text is deleted", "place");
  if (text && kind === "remark") line.append(": ", isolated(plainText(text), "quoted"));
  return [line];
}

/** What a screen reader says of a card. */
function spoken(thread) {
  const many = thread.replies?.length ?? 0;
  return [`${thread.kind === "suggestion" ? "Suggestion" : "Remark"} by ${plain(nameOf(thread))}`, STATES[thread.state],
    thread.elsewhere && "its text isn't here", thread.gone && "its text is deleted", short(plain(thread.body ?? ""), MOST_SAID),
    many && (many === 1 ? "1 reply" : `${many} replies`)].filter(Boolean).join(", ");
}

export class Card {
  #told;
  #content = made("div");
  #drawn = "";
  // What is open below: a reply, another body, or a question.
  #form;

  /** `told` is told of `looked(card)`, of `does(card, what, more)`, which gives whether that was done, of `left()`, and `says(words)`. */
  constructor(thread, told) {
    this.thread = thread;
    this.#told = told;
    this.element = Object.assign(made("article", "", "card"), { tabIndex: 0 });
    this.element.append(this.#content);
    this.element.dataset.thread = thread.id;
    this.element.addEventListener("focusin", () => told.looked(this));
    this.element.addEventListener("keydown", (event) => this.#pressed(event));
  }

  /** Whether something is being written in it, or asked. */
  get isBusy() {
    return this.#form !== undefined;
  }

  /** Whether something is written in it. */
  get hasWords() {
    return Boolean(this.#form?.hasWords);
  }

  /** Shows a thread as it is now, and all of it where it is looked at. */
  draw(thread, isLooked) {
    this.thread = thread;
    const { begin: _, end: __, ...rest } = thread;
    const now = JSON.stringify([rest, isLooked]);
    if (now === this.#drawn) return;
    this.#drawn = now;
    const focused = /** @type {HTMLElement} */ (document.activeElement);
    const at = this.#content.contains(focused) ? focused.dataset.does : undefined;
    this.element.className = `card ${thread.kind} ${thread.state}${isLooked ? " active" : ""}`;
    this.element.ariaLabel = spoken(thread);
    this.element.ariaCurrent = String(isLooked);
    this.#content.replaceChildren(...this.#parts(isLooked));
    if (at) (/** @type {HTMLElement} */ (this.#content.querySelector(`[data-does="${CSS.escape(at)}"]`)) ?? this.element).focus();
  }

  * #parts(isLooked) {
    const { thread } = this;
    const [replies, state] = [thread.replies ?? [], STATES[thread.state]];
    yield headOf(thread, ...(state && state !== STATES.taken ? [" ", made("small", state, "state")] : []));
    yield* placeOf(thread);
    yield* changeOf(thread, isLooked);
    if (thread.body || isTaken(thread)) yield bodyOf(thread, isLooked);
    if (!isLooked) {
      if (replies.length) yield made("p", replies.length === 1 ? "1 reply" : `${replies.length} replies`, "many");
      return;
    }
    if (replies.length) yield this.#replies(replies);
    yield this.#buttons(thread);
  }

  #replies(replies) {
    const list = made("ol");
    list.append(...replies.map((one) => {
      const item = made("li");
      item.append(headOf(one), bodyOf(one, true));
      if (one.own && !isTaken(one)) item.append(this.#line([["Edit", "revise"], ["Take back", "withdraw"]], one));
      return item;
    }));
    return list;
  }

  #buttons(thread) {
    const { kind, state, own } = thread;
    const isOpen = state === "open";
    const does = [["Reply", "reply"]];
    if (isOpen && kind === "suggestion") does.push(["Accept", "accept"], ["Reject", "reject"]);
    if (isOpen) does.push(["Resolve", "resolve"]);
    if (state === "resolved" || state === "rejected") does.push(["Reopen", "reopen"]);
    if (own && state !== "taken") does.push(["Edit", "revise"], ["Take back", "withdraw"]);
    return this.#line(does, thread);
  }

  /** Buttons, each of which does something with a record. */
  #line(does, record) {
    const line = made("p", "", "buttons");
    line.append(...does.map(([words, what]) => {
      const it = button(words, () => this.does(what, record));
      it.dataset.does = `${what} ${record.id}`;
      return it;
    }));
    return line;
  }

  /** Does something with a record; what has words is asked for them. */
  async does(what, record = this.thread) {
    if (what === "reply" || what === "revise") {
      this.#opens({ words: what === "reply" ? "Reply" : "Edit", text: what === "reply" ? "" : record.body ?? "", isNeeded: true,
        done: (body) => this.#told.does(this, what, { to: record.id, body }) });
    } else {
      await this.#told.does(this, what, { to: record.id });
    }
  }

  /** Asks whether a suggestion is to be accepted by which the passage becomes another text than was shown. */
  ask({ was, now, becomes }) {
    const texts = made("dl");
    for (const [name, text] of [["It was", was], ["It is now", now], ["It would be", becomes]]) {
      const [term, words] = [made("dt", name), made("dd")];
      words.append(text ? isolated(plainText(text)) : made("i", "nothing"));
      texts.append(term, words);
    }
    this.#opens({ words: "Accept this", told: [made("p", "The text was changed since this was shown."), texts],
      done: () => this.#told.does(this, "accept", { to: this.thread.id, becomes }) });
  }

  /** Opens a form in the place of another one, unless words would be lost with that. */
  #opens(how) {
    if (this.#form?.hasWords) {
      this.#form.focus();
      this.#told.says("First send what is written here, or cancel it. ");
      return;
    }
    this.#form?.element.remove();
    const form = new Form({ ...how, left: () => this.#closes(form) });
    this.#form = form;
    this.element.append(form.element);
    form.focus();
    this.#told.looked(this);
  }

  #closes(form) {
    if (form !== this.#form) return;
    const wasHere = this.#form.element.contains(document.activeElement);
    this.#form.element.remove();
    this.#form = undefined;
    if (wasHere) this.element.focus();
    this.#told.looked(this);
  }

  #pressed(event) {
    if (event.key === "Enter" && event.target === this.element) {
      event.preventDefault();
      /** @type {HTMLElement | null} */ (this.element.querySelector("button"))?.focus();
    } else if (event.key === "Escape" && !event.isComposing) {
      event.preventDefault();
      if (this.#form && !this.#form.hasWords) this.#closes(this.#form);
      else this.#told.left();
    }
  }
}
