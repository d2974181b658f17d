// A stand-in for CodeMirror, without a page: the text, and selections and marks that changes move as CodeMirror's do.

const order = (one, other) => one.line - other.line || one.ch - other.ch;

class Range {
  constructor(anchor, head) {
    Object.assign(this, { anchor, head });
  }

  from() { return order(this.anchor, this.head) < 0 ? this.anchor : this.head; }

  to() { return order(this.anchor, this.head) < 0 ? this.head : this.anchor; }

  empty() { return order(this.anchor, this.head) === 0; }
}

class Standing {
  display = { lineSpace: { appendChild: (element) => element } };
  #text = "";
  // Each selection as the indices of its ends.
  #selected = [[0, 0]];
  #hears = { beforeChange: [], changes: [] };
  // Each mark as the indices of its ends; of one at a place both are the same.
  #marked = new Set();

  on(what, calls) { this.#hears[what]?.push(calls); }

  operation(does) { does(); }

  getOption() {}

  setOption() {}

  getInputField() { return { addEventListener() {} }; }

  lineCount() { return this.lastLine() + 1; }

  getValue() { return this.#text; }

  getLine(number) { return this.#text.split("\n")[number]; }

  getLineHandle(number) { return number; }

  getLineNumber(handle) { return handle; }

  #mark(from, to, more) {
    const ends = [from, to].map((place) => this.#index(place));
    this.#marked.add(ends);
    return { ...more, find: () => more.found(...ends.map((at) => this.#at(at))), clear: () => this.#marked.delete(ends) };
  }

  markText(from, to, { thread }) { return this.#mark(from, to, { thread, found: (begin, end) => ({ from: begin, to: end }) }); }

  setBookmark(place) { return this.#mark(place, place, { found: (at) => at }); }

  lastLine() { return this.#text.split("\n").length - 1; }

  eachLine(from, to, does) { this.#text.split("\n").slice(from, to).some((text) => does({ text }) === true); }

  #at(index) {
    const before = this.#text.slice(0, index).split("\n");
    return { line: before.length - 1, ch: before.at(-1).length };
  }

  #index({ line, ch }) {
    return this.#text.split("\n").slice(0, line).reduce((sum, text) => sum + text.length + 1, ch);
  }

  listSelections() { return this.#selected.map(([anchor, head]) => new Range(this.#at(anchor), this.#at(head))); }

  getCursor(end) { return this.listSelections()[0][end]; }

  setCursor(place) { this.setSelections([{ anchor: place, head: place }]); }

  setSelections(list) { this.#selected = list.map(({ anchor, head }) => [this.#index(anchor), this.#index(head)]); }

  replaceRange(text, from, to) {
    for (const calls of this.#hears.beforeChange) calls(this, { from, to, text: text.split("\n") });
    const [begin, end] = [this.#index(from), this.#index(to)];
    const moved = (place) => {
      if (place < begin) return place;
      return place <= end ? begin + text.length : place + text.length - (end - begin);
    };
    this.#text = this.#text.slice(0, begin) + text + this.#text.slice(end);
    this.#selected = this.#selected.map((ends) => ends.map(moved));
    for (const ends of this.#marked) {
      // What comes in at a mark's ends, or at a place that is marked, isn't in it, and stands behind the place.
      const [first, last] = ends;
      const isPlace = first === last;
      ends[0] = first < begin || isPlace && first === begin ? first : moved(first);
      ends[1] = Math.max(ends[0], last < end || last === begin ? Math.min(last, begin) : moved(last));
    }
    for (const calls of this.#hears.changes) calls(this);
  }
}

globalThis.document = { createElement: () => ({ append() {}, dataset: {} }) };
globalThis.ResizeObserver = class { observe() {} };
globalThis.CodeMirror = Object.assign(function make() { return new Standing(); }, {
  cmpPos: order, defaults: { specialCharPlaceholder() {}, viewportMargin: 10 },
});
