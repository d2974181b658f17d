// Words of others as they are shown: data, whose controls are seen, and whose direction ends where they end.

// All but the line end; in what is to stand in the note a tab isn't one either.
const CONTROLS = /[\0-\x09\x0b-\x1f\x7f-\x9f]/g;
const CONTROLS_OF_TEXT = /[\0-\x08\x0b-\x1f\x7f-\x9f]/g;
const MOST_SECONDS = 8.64e12;

/** Words without controls. */
export function plain(words) {
  return String(words).replace(CONTROLS, "\ufffd");
}

/** Text of a note without controls. */
export function plainText(text) {
  return String(text).replace(CONTROLS_OF_TEXT, "\ufffd");
}

/** The first of some words. */
export function short(words, most) {
  const signs = [...words.slice(0, 2 * most)];
  return signs.length > most || words.length > 2 * most ? `${signs.slice(0, most).join("")} …` : words;
}

/** An element with words, and of a class. */
export function made(name, words = "", className = "") {
  return Object.assign(document.createElement(name), { textContent: words, className });
}

/** Words whose direction is their own. */
export function isolated(words, className = "") {
  return made("bdi", words, className);
}

/** A button that says what it does. */
export function button(words, does, title = "") {
  const it = Object.assign(made("button", words), { type: "button", title });
  it.addEventListener("click", does);
  return it;
}

/** When something was written, as its author says. */
export function when(seconds) {
  return Math.abs(seconds) > MOST_SECONDS ? "?" : new Date(1000 * seconds).toLocaleString([], { dateStyle: "medium", timeStyle: "short" });
}
