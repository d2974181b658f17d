// Which messages of a text type a replacement that is suggested, and hide it at once, as share/review/hidden.py has it.

/** @typedef {import("./chunk.js").Operation} Operation */
/** @typedef {import("./value.js").Names} Names */

/** The sites and seqs, each as a key, of the messages that type one of these replacements, and of the next one, which hides just that, as
 * long as nothing of it is shown. What was shown before it was hidden is none.
 * @param {Names[]} suggested @param {Operation[]} operations */
export function hiddenAtOnce(suggested, operations) {
  const changes = operations.filter(({ kind }) => kind === "deleted" || kind === "restored")
    .sort((one, other) => one.stamp - other.stamp || one.site - other.site);
  /** @type {Set<string>} */
  const found = new Set();
  for (const { names, site, first, last } of suggested.length ? typedAndHidden(new Set(suggested.map(String)), operations) : []) {
    if (isShownAfter(names, changes)) continue;
    for (let seq = first; seq <= last; seq += 1) found.add(keyOf(site, seq));
  }
  return found;
}

/** @param {number} site @param {number} seq */
export const keyOf = (site, seq) => `${site} ${seq}`;

/** The replacements that are typed by messages of their own and hidden by the next one, with the seqs of these.
 * @param {Set<string>} suggested @param {Operation[]} operations */
function typedAndHidden(suggested, operations) {
  /** @type {{ names: Names, site: number, first: number, last: number }[]} */
  const found = [];
  // What each site typed in a row last.
  /** @type {Map<number, Operation[]>} */
  const rows = new Map();
  for (const one of operations) {
    const row = rows.get(one.site) ?? [];
    const before = row[row.length - 1];
    const goesOn = before !== undefined && before.seq + before.size === one.seq;
    if (one.data.length) {
      if (goesOn) row.push(one);
      else rows.set(one.site, [one]);
      continue;
    }
    const isOne = goesOn && one.kind === "deleted" && one.names.length === 1 && suggested.has(String(one.names[0]));
    const first = isOne ? beginOf(one.names[0], row) : undefined;
    if (first !== undefined) found.push({ names: one.names[0], site: one.site, first, last: one.seq });
    rows.delete(one.site);
  }
  return found;
}

/** The seq of the message that typed the first of some characters, where they are what these typed last.
 * @param {Names} names @param {Operation[]} row */
function beginOf([site, at, length], row) {
  const last = row[row.length - 1];
  if (site !== last.site || at + length !== last.at + last.data.length) return undefined;
  for (const one of row) {
    const index = at - one.at;
    if (index >= 0 && index < one.data.length && (one.size > 1 || index === 0)) return one.seq + index;
  }
  return undefined;
}

/** Whether one of some characters is shown after these operations, the last of which decides.
 * @param {Names} names @param {Operation[]} changes */
function isShownAfter([site, at, length], changes) {
  const shown = new Uint8Array(length).fill(1);
  for (const { kind, names } of changes) {
    for (const [of, from, many] of names) {
      if (of === site && from < at + length && at < from + many) {
        shown.fill(kind === "restored" ? 1 : 0, Math.max(0, from - at), Math.min(length, from + many - at));
      }
    }
  }
  return shown.includes(1);
}
