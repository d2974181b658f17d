// Where cards stand: beside the lines that they are about, one below the other where they would overlap; or as a list.

const GAP = 8;

/**
 * Where things begin that want to begin at some heights, rising, none of which overlap and none of which is above 0. The one with the
 * number `fixed` is where it wants to be, as far as those before it leave it room.
 */
export function stacked(wanted, heights, fixed = 0) {
  const tops = [...wanted];
  for (let at = fixed - 1; at >= 0; at -= 1) tops[at] = Math.min(tops[at], tops[at + 1] - heights[at] - GAP);
  for (let at = 0, least = 0; at < tops.length; at += 1) {
    tops[at] = Math.max(tops[at], least);
    least = tops[at] + heights[at] + GAP;
  }
  return tops;
}

export class Margin {
  #cm;
  #place;
  #items;
  #isList = false;
  #isDue = false;

  /**
   * Of a text's cards, in an element. `items()` gives what is to stand there, in this order: `items`, each an element and what gives its
   * place in the text; which of them is `fixed`; and whether it `isList`.
   */
  constructor(cm, place, items) {
    [this.#cm, this.#place, this.#items] = [cm, place, items];
    for (const event of ["scroll", "update", "refresh"]) cm.on(event, () => this.soon());
    new ResizeObserver(() => this.soon()).observe(place);
    // Where there is nothing to be scrolled beside the text, that is scrolled.
    place.addEventListener("wheel", ({ deltaY, deltaMode, ctrlKey }) => {
      if (this.#isList || ctrlKey || deltaMode || place.scrollHeight > place.clientHeight) return;
      cm.scrollTo(null, cm.getScrollInfo().top + deltaY);
    }, { passive: true });
  }

  /** Draws the cards anew before the page is shown next. */
  soon() {
    if (this.#isDue) return;
    this.#isDue = true;
    requestAnimationFrame(() => {
      this.#isDue = false;
      this.draw();
    });
  }

  /** Shows what is to stand there, and nothing else. */
  draw() {
    if (this.#place.offsetParent === null) return;
    const { items, fixed, isList } = this.#items();
    this.#isList = isList;
    this.#place.classList.toggle("beside", !isList);
    const there = new Set(items.map(([element]) => element));
    for (const child of [...this.#place.children]) if (!there.has(child)) child.remove();
    let before = null;
    for (const [element] of items) {
      if ((before ? before.nextElementSibling : this.#place.firstElementChild) !== element) put(this.#place, element, before);
      before = element;
    }
    this.#lay(items, items.findIndex(([element]) => element === fixed));
  }

  #lay(items, fixed) {
    const top = this.#place.getBoundingClientRect().top;
    const wanted = this.#isList ? [] : items.map(([, place]) => Math.max(0, this.#height(place()) - top));
    const tops = stacked(wanted, items.map(([element]) => element.offsetHeight), Math.max(0, fixed));
    items.forEach(([element], at) => { element.style.top = this.#isList ? "" : `${tops[at]}px`; });
  }

  /** Where a place's line begins in the window. */
  #height(place) {
    return place ? this.#cm.charCoords(place.from, "window").top : 0;
  }
}

/** Puts an element behind another one, or first. What is moved loses the focus, and gets it back. */
function put(parent, element, before) {
  const focused = element.contains(document.activeElement) ? /** @type {HTMLElement} */ (document.activeElement) : null;
  if (before) before.after(element);
  else parent.prepend(element);
  focused?.focus({ preventScroll: true });
}
