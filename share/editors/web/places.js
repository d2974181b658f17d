// Finds positions in a text of CodeMirror from the last one on: CodeMirror itself counts from the front each time, which is slow
// where very much is replaced.

export class Places {
  #cm;
  // A line, and the position of its begin.
  #line = 0;
  #begin = 0;

  /** From then on positions can be asked for at any time, since what is before a change stays where it is. */
  constructor(cm) {
    this.#cm = cm;
    cm.on("beforeChange", (_, { from, to }) => {
      this.of(to);
      this.of(from);
    });
  }

  /** The position of a place. */
  of({ line, ch }) {
    this.#back(() => this.#line > line);
    this.#cm.eachLine(this.#line, line, (one) => this.#pass(one));
    return this.#begin + ch;
  }

  /** The place of a position. */
  at(position) {
    this.#back(() => this.#begin > position);
    this.#cm.eachLine(this.#line, this.#cm.lastLine(), (one) => {
      if (position <= this.#begin + one.text.length) return true;
      return this.#pass(one);
    });
    const { length } = this.#cm.getLine(this.#line);
    return { line: this.#line, ch: Math.min(position - this.#begin, length) };
  }

  /** Goes back line by line, as long as a condition holds. */
  #back(goes) {
    while (this.#line > 0 && goes()) {
      this.#line -= 1;
      this.#begin -= this.#cm.getLine(this.#line).length + 1;
    }
  }

  #pass(line) {
    this.#begin += line.text.length + 1;
    this.#line += 1;
  }
}
