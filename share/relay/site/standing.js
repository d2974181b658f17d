// How a note stands, as an engine says it.

/** @param {import("./followed.js").Standing} standing @param {import("./whole.js").Whole} whole @param {number} on how many are on */
export function stateOf({ isUp, words, unsent, read, of }, { own, types, facts, isSearching, leftOut }, on) {
  // Offline it is told what is kept.
  const waiting = unsent + (isUp ? own.waiting : 0);
  const renewed = facts.renewedBy[0];
  return { log: isUp ? (waiting ? "sending" : "sent") : "away", unsent: waiting, on, types, waiting: 0, site: own.number?.site ?? 0,
    ...(isUp || !words ? {} : { why: words }), ...(isUp && words ? { trouble: words } : {}), ...(read < of ? { read, of } : {}),
    ...(renewed ? { renewed: { site: 0, name: renewed, own: false } } : {}), ...(isSearching ? { searching: true } : {}),
    ...(leftOut.length ? { left_out: leftOut.map(({ text, ...one }) => one) } : {}) };
}
