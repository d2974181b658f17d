// Prints all of a text: its editor has only what is seen of it in the page.

/** @type {(id: string) => any} */
const element = (id) => document.getElementById(id);

/** A text, with its looks. */
function* pieces(cm) {
  const text = cm.getValue();
  const looked = cm.getAllMarks().filter((mark) => mark.looks).map((mark) => [mark, mark.find()]);
  const stretches = looked.map(([mark, { from, to }]) => [cm.indexFromPos(from), cm.indexFromPos(to), mark.css]);
  let done = 0;
  for (const [begin, end, css] of stretches.sort(([one], [other]) => one - other)) {
    const piece = document.createElement("span");
    piece.style.cssText = css;
    piece.textContent = text.slice(begin, end);
    yield* [text.slice(done, begin), piece];
    done = end;
  }
  yield text.slice(done);
}

/** Has all be printed of what is shown: `shown` gives its editor, or an element that has it all. */
export function printsAll(shown) {
  addEventListener("beforeprint", () => {
    const it = shown();
    const isSheet = it instanceof Element;
    element("print").replaceChildren(...(isSheet ? it.cloneNode(true).childNodes : pieces(it)));
    element("print").className = isSheet ? "sheet" : "";
  });
  addEventListener("afterprint", () => element("print").replaceChildren());
}
