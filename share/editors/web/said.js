// What the page says to its user: how things are, and words that stay until they are put away.

/** @type {(id: string) => any} */
const element = (id) => document.getElementById(id);
const MOST_WORDS = 5;

/** Shows how things are. */
export function showState(words, isTrouble = false, why = "") {
  const shown = isTrouble && why ? `${words}: ${why}` : words;
  // What is the same isn't read aloud again.
  if (element("state").textContent !== shown) element("state").textContent = shown;
  element("state").title = why ?? "";
  element("state").classList.toggle("trouble", isTrouble);
}

/** Shows words for the user, until they are put away; the line that has them. */
export function say(words, ...more) {
  const line = document.createElement("p");
  const away = document.createElement("button");
  line.append(words, ...more, away);
  away.textContent = "OK";
  away.addEventListener("click", () => line.remove());
  element("words").append(line);
  // What was typed goes by its user's will only.
  const others = [...element("words").children].filter((one) => !one.matches(".typed"));
  for (const one of others.slice(0, -MOST_WORDS)) one.remove();
  return line;
}
