// Others' names and colours, which are data: a name has an end, and what isn't spelled as a colour isn't one.
const MOST_NAME = 40;
const COLOUR = /^#[0-9a-f]{6}$/i;
// How light red, green and blue are.
const LIGHT = [0.2126, 0.7152, 0.0722];
const GREY = "#555555";
const PALETTE = ["#c0392b", "#2471a3", "#1e8449", "#7d3c98", "#b9770e", "#148f77", "#a04000", "#515a5a", "#ad1457", "#4a6fa5"];

/** The colour of one who isn't on, by a number. */
export function colourAt(number) {
  return PALETTE[number % PALETTE.length];
}

/** A colour as it stands after words. */
export function pale(spelled) {
  return `${colourOf(spelled)}30`;
}

/** The colour that is spelled so. */
export function colourOf(spelled) {
  return COLOUR.test(spelled) ? spelled : GREY;
}

/** A name as it is shown. */
export function shownName(name) {
  return [...(name || "?")].slice(0, MOST_NAME).join("");
}

/** How one who wrote is called. */
export function nameOf({ name, own, site }) {
  return shownName(name || (own ? "you" : `site ${site}`));
}

/** Has an element be of a colour, with words on it that can be read. */
export function paint(element, spelled) {
  const colour = colourOf(spelled);
  const parts = [1, 3, 5].map((at) => parseInt(colour.slice(at, at + 2), 16) / 255);
  const light = parts.map((one) => ((one + 0.055) / 1.055) ** 2.4).reduce((sum, one, at) => sum + one * LIGHT[at], 0);
  element.style.backgroundColor = colour;
  // Where both are as easy to read.
  element.style.color = light > 0.18 ? "#000" : "#fff";
}
