// Where what replaces a passage stands inside it, as share/text/graphemes.py has it.

const SIGNS = new Intl.Segmenter();

/** How long the first sign of a text is, what people see as one character.
 * @param {string} text */
function signLength(text) {
  for (const { segment } of SIGNS.segment(text)) return segment.length;
  return 0;
}

/** Behind how much of a passage that stands: behind its first line end, else blank, else sign; 0 where it has one sign alone.
 * @param {string} passage */
export function inside(passage) {
  for (const apart of ["\n", " "]) {
    const at = passage.indexOf(apart) + 1;
    if (at > 0 && at < passage.length && signLength(passage.slice(at - 1, at + 3)) === 1) return at;
  }
  const at = signLength(passage.slice(0, 256));
  return at < passage.length ? at : 0;
}
