// The state of a note's log, in words, and how many of the user's edits aren't kept yet.
import { nameOf } from "./people.js";
import { showState } from "./said.js";

const MOST_LEFT_OUT = 3;
// How long an edit may take until it is said that it isn't kept yet.
const SOON_MS = 500;

/** How much of somebody's text is left out for good, in words. */
function leftOutWords(line) {
  return `${line.characters} of ${nameOf(line)}`;
}

/** The state of the log, in words. */
export function stateWords({ log, unsent, waiting, on, types, read, of, left_out: leftOut = [], renewed, unproved }) {
  const edits = unsent === 1 ? "1 edit" : `${unsent} edits`;
  const kept = unsent ? `, ${edits} kept` : "";
  const words = { none: "kept here alone", sent: "all sent", sending: `${edits} to be sent`, away: `offline${kept}` };
  const parts = [words[log] ?? log, of && `${Math.floor((100 * read) / of)} % read`, on > 1 && `${on} on`,
    waiting && `${waiting} wait for others`, !types && "can't type yet",
    leftOut.length && `left out: ${leftOut.slice(0, MOST_LEFT_OUT).map(leftOutWords).join(", ")}${leftOut[MOST_LEFT_OUT] ? ", .." : ""}`,
    renewed && `renewed by ${nameOf(renewed)}`, unproved && "not proved"];
  return parts.filter(Boolean).join(", ");
}

/** What the line of the page's state says. */
export class State {
  #line;
  #counts;
  // Of how many edits it is said that they aren't kept yet, and when it is.
  #said = 0;
  #timer;

  /** `counts` gives how many edits aren't kept yet. */
  constructor(counts) {
    this.#counts = counts;
  }

  /** The engine says how things are. */
  is(line) {
    this.#line = line;
    this.#shows();
  }

  /** An edit was made, or answered. */
  follows() {
    const many = this.#counts();
    if (many && !this.#said) {
      this.#timer ??= setTimeout(() => this.#says(this.#counts()), SOON_MS);
    } else {
      if (!many) this.#timer = clearTimeout(this.#timer);
      this.#says(many);
    }
  }

  #says(many) {
    if (many === this.#said) return;
    this.#said = many;
    this.#shows();
  }

  #shows() {
    const line = this.#line;
    if (!line) return;
    const unkept = this.#said === 1 ? ", 1 edit not kept yet" : this.#said ? `, ${this.#said} edits not kept yet` : "";
    showState(`${stateWords(line)}${unkept}`, Boolean(line.trouble), line.trouble ?? line.why);
  }
}
