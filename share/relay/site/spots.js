// Where the threads of a margin stand in the text, and whether they do, as share/engine/spots.py has it.

/** @typedef {import("./value.js").Names} Names */
/** @typedef {import("./record.js").Name} Name */
/** @typedef {import("./record.js").Anchor} Anchor */
/** @typedef {{ kind: string, anchor: Anchor, new: Names[] }} AboutText */
/** How a thread stands to the text, in bytes: whether its characters are those that its author saw; where it is shown, if it is; the hidden
 * character at whose place that is; whether all that it is about is hidden, it was accepted, and what it is about is otherwise than it was.
 * @typedef {{ holds: boolean, begin: number | null, end: number, hidden: Name | null, isGone: boolean, isAccepted: boolean,
 *   isChanged: boolean }} Spot */
/** Where those of some characters are that are shown, how many these are, and whether they stand one after the other as they are named.
 * @typedef {{ begin: number, end: number, many: number, isInARow: boolean }} Extent */
/** Characters of a site that stand in a row: the first, its position, and how many.
 * @typedef {{ at: number, position: number, many: number }} Stretch */

/** Where characters are shown. */
export class Whereabouts {
  /** @type {Map<number, Stretch[]>} */
  #sites = new Map();

  /** @param {Names[]} names those of all that are shown from a position on, in their order @param {number} begin */
  constructor(names, begin = 0) {
    let position = begin;
    for (const [site, at, many] of names) {
      const one = { at, position, many };
      if (!this.#sites.get(site)?.push(one)) this.#sites.set(site, [one]);
      position += many;
    }
    for (const some of this.#sites.values()) some.sort((one, other) => one.at - other.at);
  }

  /** Where these are; nothing where none is shown.
   * @param {Names} names @returns {Extent | null} */
  of([site, at, length]) {
    const some = this.#sites.get(site) ?? [];
    let [low, high] = [0, some.length];
    while (low < high) {
      const middle = (low + high) >> 1;
      if (some[middle].at + some[middle].many <= at) low = middle + 1;
      else high = middle;
    }
    /** @type {Extent | null} */
    let found = null;
    for (let one = some[low]; one && one.at < at + length; one = some[low += 1]) {
      const [first, last] = [Math.max(one.at, at), Math.min(one.at + one.many, at + length)];
      const [begin, end, many] = [one.position + first - one.at, one.position + last - one.at, last - first];
      found = found ? { begin: Math.min(begin, found.begin), end: Math.max(end, found.end), many: found.many + many, isInARow: false }
        : { begin, end, many, isInARow: true };
    }
    return found;
  }
}

/** How a thread stands to the text whose characters aren't here.
 * @returns {Spot} */
export const nowhere = () => ({ holds: false, begin: null, end: 0, hidden: null, isGone: false, isAccepted: false, isChanged: false });

/** How a thread stands to the text whose characters are here. `place` gives where a hidden one would be.
 * @param {AboutText} about @param {{ of: (names: Names) => Extent | null }} whereabouts @param {(name: Name) => number | null} place @returns {Spot} */
export function placed({ kind, anchor, new: put }, whereabouts, place) {
  const { at, behind } = anchor;
  const found = at.map((one) => whereabouts.of(one));
  const before = behind?.[0] ? whereabouts.of([...behind, 1]) : null;
  const [shown, now] = [[...found, before], put.map((one) => whereabouts.of(one))].map((some) => some.flatMap((one) => one ?? []));
  const spot = { ...nowhere(), holds: true };
  if (kind === "suggestion") {
    spot.isAccepted = put.length ? now.length > 0 : !shown.length;
    spot.isChanged = at.length > 0 && !isAsItWas(at, found);
  }
  // An accepted one is where its replacement is.
  const places = behind || !shown.length ? now : shown;
  if (places.length) {
    spot.begin = places.reduce((least, { begin }) => Math.min(least, begin), Infinity);
    spot.end = places.reduce((most, { end }) => Math.max(most, end), 0);
  } else if (behind && (shown.length || !behind[0])) {
    spot.begin = spot.end = shown.length ? shown[0].begin + 1 : 0;
  } else {
    [spot.hidden, spot.isGone] = [behind ?? [at[0][0], at[0][1]], !behind];
    spot.begin = place(spot.hidden);
    spot.end = spot.begin ?? 0;
  }
  return spot;
}

/** Whether a thread is shown within a stretch, or at it where one of both is a place.
 * @param {Spot} spot @param {number} begin @param {number} end */
export function meets(spot, begin, end) {
  if (spot.begin === null) return false;
  if (spot.begin === spot.end || begin === end) return spot.begin <= end && begin <= spot.end;
  return spot.begin < end && begin < spot.end;
}

/** Whether all of some characters are shown, in their order, with nothing between them.
 * @param {Names[]} at @param {(Extent | null)[]} found */
const isAsItWas = (at, found) => found.every((one, place) => (
  one?.isInARow && one.many === at[place][2] && (place === 0 || one.begin === found[place - 1]?.end)));
