// Links: marked in the text, and opened only after the user has seen where they lead, without a word of where from.

/** @type {(id: string) => any} */
const element = (id) => document.getElementById(id);
const OPENED = new Set(["http:", "https:", "mailto:"]);
const LINK = /\b(?:https?:\/\/|mailto:)[^\s<>"`]*[^\s<>"`.,;:!?'()[\]{}*_]/giu;

/** Where a link leads, if it is one that the page opens. */
export function target(words) {
  let url;
  try {
    url = new URL(words);
  } catch {
    return null;
  }
  return OPENED.has(url.protocol) ? url.href : null;
}

/** Marks the links of a text. */
const overlay = {
  token(stream) {
    LINK.lastIndex = stream.pos;
    const found = LINK.exec(stream.string);
    if (!found) {
      stream.skipToEnd();
    } else if (found.index === stream.pos) {
      stream.pos += found[0].length;
      return "link";
    } else {
      stream.pos = found.index;
    }
    return null;
  },
};

/** The link that a place in a line is in. */
function linkAt(line, ch) {
  // The overlay has left it where its last link ends.
  LINK.lastIndex = 0;
  for (const { 0: words, index } of line.matchAll(LINK)) {
    if (index <= ch && ch <= index + words.length) return target(words);
  }
  return null;
}

/** Asks whether an address is to be opened, and shows it. */
export function ask(href) {
  const host = document.createElement("b");
  const url = new URL(href);
  host.textContent = url.host;
  const [before, after] = url.host ? href.split(/(?<=^[a-z]+:\/\/[^/?#]*)(?=[/?#]|$)/u) : [href, ""];
  element("address").replaceChildren(...(url.host
    ? [before.slice(0, before.length - url.host.length), host, after ?? ""]
    : [href]));
  element("follow").href = href;
  element("opens").showModal();
  element("follow").focus();
}

/** Has links of a text be marked, and opened by a click with Ctrl, or by Ctrl-Enter at the cursor. */
export function opensLinks(cm) {
  cm.addOverlay(overlay);
  cm.on("mousedown", (_, event) => {
    if (!(event.ctrlKey || event.metaKey) || event.button !== 0) return;
    const { line, ch } = cm.coordsChar({ left: event.clientX, top: event.clientY }, "window");
    const href = linkAt(cm.getLine(line), ch);
    if (!href) return;
    event.preventDefault();
    ask(href);
  });
  const atCursor = () => {
    const { line, ch } = cm.getCursor();
    const href = linkAt(cm.getLine(line), ch);
    if (href) ask(href);
  };
  cm.addKeyMap({ "Ctrl-Enter": atCursor, "Cmd-Enter": atCursor });
}

for (const id of ["follow", "stay"]) {
  element(id).addEventListener("click", () => setTimeout(() => {
    element("opens").close();
    element("follow").removeAttribute("href");
  }));
}
