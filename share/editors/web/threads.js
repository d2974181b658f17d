// The threads that are shown: those in sight, asked for anew as the text is scrolled and as the engine says that there is news; and, while
// it is shown, the list of them. So however many a note has, no key waits for them.

// The most that are asked for at once, in sight and of a list; and how many more of a list are shown each time.
const MOST_IN_SIGHT = 200;
const MOST_OF_A_PAGE = 2000;
const MORE = 50;
// The time between two questions; and how long nothing is scrolled before it is asked what is in sight then.
const NEWS_MS = 250;
const SCROLLED_MS = 100;

export class Threads {
  inSight = [];
  list = [];
  // Those that are shown though they aren't among the others, by their ids.
  kept = new Map();
  // How many there are in sight, and whether the list has more.
  many = 0;
  hasMore = false;
  isOpenOnly = true;
  author = "";
  // Why there are none, in the engine's words, once it has said whether there are any.
  why = "";
  isKnown = false;
  #editor;
  #askOf;
  #told;
  #wanted = MORE;
  #seen = [];
  #timer;
  #isAsking = false;
  #isDue = false;
  #going = Promise.resolve();
  // Of which of the text's versions the places of the list are.
  #isListOld = () => true;

  /** `told` is told of `came()`, and says whether it `isListed()`, and the ids of what is `kept()` though it isn't asked for. */
  constructor(editor, askOf, told) {
    this.#editor = editor;
    this.#askOf = askOf;
    this.#told = told;
    for (const event of ["scroll", "refresh", "changes"]) editor.cm.on(event, () => this.#scrolled());
  }

  /** Asks soon, unless the note has no margin. */
  news(ms = NEWS_MS) {
    this.#isDue = true;
    if (this.#timer || this.#isAsking || this.why) return;
    this.#timer = setTimeout(() => { this.#going = this.#go(); }, ms);
  }

  /** Asks at once; ends when that is answered. */
  async now() {
    while (this.#isAsking) await this.#going;
    clearTimeout(this.#timer);
    this.#going = this.#go();
    await this.#going;
  }

  /** Begins anew, as the note is opened. */
  begin() {
    [this.why, this.isKnown, this.#seen] = ["", false, []];
    this.news(0);
  }

  /** Shows more of the list. */
  more() {
    this.#wanted += MORE;
    this.news(0);
  }

  /** Asks where another part of the text is in sight than that which was asked for. */
  #scrolled() {
    if (this.why || this.#timer || !this.#seen.length) return;
    const { cm } = this.#editor;
    const [from, to] = this.#seen.map((line) => cm.getLineNumber(line));
    const [first, last] = this.#editor.inSight(0);
    if (from === null || to === null || first.line < from || last.line > to) this.news(SCROLLED_MS);
  }

  async #go() {
    this.#timer = undefined;
    [this.#isAsking, this.#isDue] = [true, false];
    try {
      if (this.#editor.composing.isOn || !await this.#look()) this.#isDue = true;
      else this.#told.came();
    } finally {
      this.#isAsking = false;
    }
    if (this.#isDue) this.news();
  }

  /** Asks; whether the places that were answered are those of the text as it is. */
  async #look() {
    const { cm, places } = this.#editor;
    const ends = this.#editor.inSight(1);
    const [begin, end] = ends.map((place) => places.of(place));
    // Others' text may come in before the answer, and lines go.
    const seen = ends.map(({ line }) => cm.getLineHandle(line));
    const range = { begin, end };
    const answer = await this.#ask({ ...range, most: MOST_IN_SIGHT });
    this.isKnown ||= answer.error !== "away";
    if (answer.error) {
      this.why = answer.error === "margin" ? answer.words : "";
      return answer.error !== "stale";
    }
    const list = this.#told.isListed() ? await this.#listed() : { threads: this.list, hasMore: this.hasMore };
    const kept = await this.#keptOf(answer.threads, range);
    if (!list || answer.isOld() || this.#editor.composing.isOn) return false;
    this.#seen = seen;
    [this.inSight, this.many, this.kept] = [answer.threads.filter((one) => this.#isSought(one)), answer.of, kept];
    [this.list, this.hasMore] = [list.threads, list.hasMore];
    return true;
  }

  #ask(more) {
    return this.#askOf({ do: "remarks", ...(this.isOpenOnly ? { open: true } : {}), ...more });
  }

  #isSought(thread) {
    return !this.author || thread.name === this.author;
  }

  /** The first of all threads that are sought, as many as are wanted. */
  async #listed() {
    const threads = [];
    let [from, of] = [0, 0];
    do {
      const most = this.author ? MOST_OF_A_PAGE : Math.min(MOST_OF_A_PAGE, this.#wanted + 1);
      const page = await this.#ask({ from, most });
      if (page.error || page.isOld()) return undefined;
      this.#isListOld = page.isOld;
      [from, of] = [from + page.threads.length, page.threads.length ? page.of : 0];
      threads.push(...page.threads.filter((one) => this.#isSought(one)));
    } while (threads.length <= this.#wanted && from < of);
    return { threads: threads.slice(0, this.#wanted), hasMore: threads.length > this.#wanted };
  }

  /** What is shown anyway, as it is now, as far as it is in sight. */
  async #keptOf(threads, range) {
    const ids = this.#told.kept().filter((id) => threads.every((one) => one.id !== id));
    if (!ids.length) return new Map();
    const answer = await this.#askOf({ do: "remarks", ...range, most: MOST_OF_A_PAGE });
    return new Map((answer.threads ?? []).filter(({ id }) => ids.includes(id)).map((one) => [one.id, one]));
  }

  /** The list's thread with an id, with a place that is right. */
  async found(id) {
    if (this.#isListOld()) {
      const list = await this.#listed();
      if (list) this.list = list.threads;
    }
    return this.list.find((one) => one.id === id);
  }

  /** The thread after one at a place of the text, or the one before it; from an end of the text on at the other one. */
  async next(id, at, forward) {
    const { length } = this.#editor.text;
    const [part, place] = [await this.#part(...(forward ? [at, length] : [0, at]), forward), forward ? 0 : -1];
    const number = part.findIndex((one) => one.id === id);
    const further = forward ? part.slice(number + 1) : part.slice(0, number < 0 ? part.length : number);
    return further.at(place) ?? (await this.#part(0, length, forward)).at(place);
  }

  /** The threads at the begin of a part of the text, or at its end. */
  async #part(begin, end, forward) {
    const { of = 0 } = forward ? {} : await this.#ask({ begin, end, most: 1 });
    const answer = await this.#ask({ begin, end, from: Math.max(0, of - MOST_IN_SIGHT), most: MOST_IN_SIGHT });
    return (answer.threads ?? []).filter((one) => this.#isSought(one));
  }
}
