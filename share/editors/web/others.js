// Others' cursors and selections, drawn over the text: in the text itself nothing is of them, so that it can be read aloud.
import { colourOf, paint, pale, shownName } from "./people.js";

// How long a name is shown after its cursor moved.
const NAMED_MS = 2000;

export class Others {
  #cm;
  #places;
  #layer;
  // By who they are.
  #shown = new Map();

  constructor(cm, places) {
    this.#cm = cm;
    this.#places = places;
    this.#layer = cm.display.lineSpace.appendChild(document.createElement("div"));
    this.#layer.className = "others";
    this.#layer.ariaHidden = "true";
    for (const event of ["update", "refresh"]) cm.on(event, () => this.#draw());
  }

  /** Shows these cursors of others, and no others. */
  show(list) {
    const before = this.#shown;
    this.#shown = new Map();
    this.#cm.operation(() => {
      for (const one of list) {
        const old = before.get(one.who);
        before.delete(one.who);
        this.#shown.set(one.who, old && this.#isThere(old, one) ? old : this.#made(one, old));
      }
      for (const old of before.values()) {
        old.marks.forEach((mark) => mark.clear());
        old.element.remove();
      }
    });
    this.#draw();
  }

  #isThere(old, { name, colour, at, anchor }) {
    return old.name === name && old.colour === colour && old.anchor === undefined && anchor === undefined && this.#indexOf(old) === at;
  }

  /** Where a cursor is that what came has moved along with its text. */
  #indexOf(old) {
    const place = old.marks[0].find();
    return place && this.#places.of(place);
  }

  #made({ name, colour, at, anchor }, old) {
    const moved = !old || this.#indexOf(old) !== at;
    old?.marks.forEach((mark) => mark.clear());
    const [place, other] = [at, anchor ?? at].map((index) => this.#places.at(index));
    const marks = [this.#cm.setBookmark(place)];
    if (anchor !== undefined) {
      const [from, to] = at < anchor ? [place, other] : [other, place];
      marks.push(this.#cm.markText(from, to, { css: `background-color: ${pale(colour)}` }));
    }
    const one = { name, colour, anchor, marks, element: old?.element ?? caret(), timer: old?.timer };
    dress(one.element, name, colour);
    if (moved) this.#name(one);
    return one;
  }

  /** Shows a name for a while. */
  #name(one) {
    clearTimeout(one.timer);
    one.element.classList.add("moved");
    one.timer = setTimeout(() => one.element.classList.remove("moved"), NAMED_MS);
  }

  #draw() {
    const { from, to } = this.#cm.getViewport();
    for (const { marks: [mark], element } of this.#shown.values()) {
      const place = mark.find();
      if (place && place.line >= from && place.line < to) {
        const { left, top, bottom } = this.#cm.cursorCoords(place, "div");
        Object.assign(element.style, { left: `${left}px`, top: `${top}px`, height: `${bottom - top}px` });
        element.classList.toggle("turned", left > this.#layer.parentNode.clientWidth / 2);
        this.#layer.append(element);
      } else {
        element.remove();
      }
    }
  }
}

/** A cursor, which has a name. */
function caret() {
  const element = document.createElement("span");
  element.className = "caret";
  element.append(document.createElement("b"));
  return element;
}

function dress(element, name, colour) {
  element.style.borderColor = colourOf(colour);
  element.firstChild.textContent = shownName(name);
  paint(element.firstChild, colour);
}
