// Looks of characters, by fonts, colours and offsets, as share/text/looks.py has them.

/** @typedef {{ font: string, colour: number, offset: number }} Look */

const [PLAIN_FONT, LONGEST_FONT, PLAIN_COLOURS] = ["Oberon10.Scn.Fnt", 31, [0, 1]];
/** In which everybody types, until it is changed. */
export const PLAIN = { font: PLAIN_FONT, colour: 1, offset: 0 };
const [FONT_SELECTED, COLOUR_SELECTED, OFFSET_SELECTED] = [1, 2, 4];
// A family with its size, whether it is bold or slanted, and the rest. Letters after the size say that.
const FONT = /^([A-Za-z]*[0-9]*)(b|i|bi)?((?:\..*)?)$/s;

/** @param {string} font */
function partsOf(font) {
  const [, family, ending = "", rest] = FONT.exec(font) ?? [font, font, "", ""];
  return { family, ending, rest };
}

/** @param {string} font */
const isBold = (font) => partsOf(font).ending.includes("b");

/** The font of the same family that is bold, or isn't.
 * @param {string} font @param {boolean} bold @returns {string} */
function withWeight(font, bold) {
  const { family, ending, rest } = partsOf(font);
  const made = `${family}${bold ? "b" : ""}${ending.replace("b", "")}${rest}`;
  return made.length <= LONGEST_FONT && isBold(made) === bold ? made : withWeight(PLAIN_FONT, bold);
}

/** Looks with a weight and a colour, as far as these are given.
 * @param {Look} look @param {{ bold?: boolean, colour?: number }} set @returns {Look} */
export function setting({ font, colour, offset }, set) {
  return { font: set.bold === undefined ? font : withWeight(font, set.bold), colour: set.colour ?? colour, offset };
}

/** Looks in which some values are those that a message spells.
 * @param {Look} look @param {number} selected which values @param {Uint8Array} values @returns {Look} */
export function spelledOver(look, selected, values) {
  const behindFont = selected & FONT_SELECTED ? 1 + values[0] : 0;
  const behindColour = behindFont + Number(Boolean(selected & COLOUR_SELECTED));
  return {
    font: selected & FONT_SELECTED ? String.fromCharCode(...values.subarray(1, behindFont)) : look.font,
    colour: selected & COLOUR_SELECTED ? values[behindFont] : look.colour,
    offset: selected & OFFSET_SELECTED ? (values[behindColour] << 24) >> 24 : look.offset,
  };
}

/** @param {Look} one @param {Look} other */
export const isAlike = (one, other) => one.font === other.font && one.colour === other.colour && one.offset === other.offset;

/** What an editor is told of looks: as far as they aren't plain.
 * @param {Look} look */
export function toldOf({ font, colour, offset }) {
  return { ...(isBold(font) ? { bold: true } : {}), ...(partsOf(font).ending.includes("i") ? { italic: true } : {}),
    ...(PLAIN_COLOURS.includes(colour) ? {} : { colour }), ...(offset ? { offset } : {}) };
}
