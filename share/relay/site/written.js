// The lines of a record that is written, one for each insertion, as share/review/writing.py has it: of one that is too long for a line,
// others go on with it.
import { Trouble, join } from "./bytes.js";
import { MOST_OF_A_LINE, MOST_PARTS, VERSION, sumOf } from "./record.js";

/** @typedef {import("./record.js").MarginRecord} MarginRecord */
/** @typedef {import("./value.js").Names} Names */
/** @typedef {import("./record.js").Fields} Fields */

const TOO_LONG = "That is too long, or scattered over too many stretches, to be remarked on. Select less, or write less.";
const HAVE_BODY = ["remark", "suggestion", "reply", "revised"];

/** How many bytes a value takes.
 * @param {unknown} value */
const sizeOf = (value) => join(JSON.stringify(value)).length;

/** The line that has fields.
 * @param {Fields} fields */
export const lineOf = (fields) => join(JSON.stringify(fields), "\n");

/** What of a record isn't written yet. */
class Left {
  #at;
  #saw;
  #body;

  /** @param {MarginRecord} one */
  constructor({ anchor, body }) {
    [this.#at, this.#saw, this.#body] = [[...anchor?.at ?? []], Object.entries(anchor?.saw ?? {}), [...body]];
  }

  get hasMore() {
    return this.#at.length + this.#saw.length + this.#body.length > 0;
  }

  /** A line's fields with as much as there is room for.
   * @param {Fields} fields @returns {Fields} */
  with(fields) {
    let room = MOST_OF_A_LINE - lineOf({ ...fields, at: [], saw: {}, body: "" }).length;
    const fits = (/** @type {number} */ size) => {
      const does = size <= room;
      if (does) room -= size;
      return does;
    };
    /** @type {Names[]} */
    const at = [];
    /** @type {Record<string, string>} */
    const saw = {};
    while (this.#at.length && fits(sizeOf(this.#at[0]) + 1)) at.push(/** @type {Names} */ (this.#at.shift()));
    while (this.#saw.length && fits(sizeOf(Object.fromEntries([this.#saw[0]])))) Object.assign(saw, Object.fromEntries([this.#saw.shift() ?? []]));
    let many = 0;
    while (many < this.#body.length && fits(sizeOf(this.#body[many]) - 2)) many += 1;
    return { ...fields, ...(at.length ? { at } : {}), ...(Object.keys(saw).length ? { saw } : {}), body: this.#body.splice(0, many).join("") };
  }
}

/** The lines of a record, the first of which is inserted as these characters of a site, and the others after it.
 * @param {MarginRecord} one @param {number} site @param {number} at */
export async function linesOf(one, site, at) {
  const fields = ownFields(one);
  if (!HAVE_BODY.includes(one.kind)) return [lineOf(fields)];
  let left = new Left(one);
  const first = left.with({ ...fields, parts: MOST_PARTS });
  if (!left.hasMore) {
    left = new Left(one);
    return [lineOf(ordered(left.with(fields), one))];
  }
  /** @type {Fields[]} */
  const parts = [];
  while (left.hasMore && parts.length < MOST_PARTS) {
    parts.push(left.with({ ...beginning(one, "more"), of: [site, at, "0".repeat(16)], part: parts.length + 1 }));
  }
  if (left.hasMore) throw new Trouble(TOO_LONG);
  const data = lineOf(ordered({ ...first, parts: parts.length }, one));
  const sum = await sumOf(data);
  return [data, ...parts.map((part) => lineOf({ ...part, of: [site, at, sum] }))];
}

/** @param {MarginRecord} one @param {string} kind @returns {Fields} */
const beginning = ({ by, time }, kind) => ({ v: VERSION, is: kind, by, time });

/** The fields of a record but for those that may be cut.
 * @param {MarginRecord} one @returns {Fields} */
export function ownFields(one) {
  const { kind, of, state, accepts, anchor } = one;
  return { ...beginning(one, kind), ...(of ? { of: [...of.id.split(":").map(Number), of.sum] } : {}),
    ...(state ? { state } : {}), ...(state && accepts !== null ? { accepts } : {}),
    ...(anchor?.behind ? { behind: anchor.behind } : {}), ...(anchor ? { text: anchor.text, sum: anchor.sum } : {}),
    ...(kind === "suggestion" ? { new: one.new } : {}) };
}

/** The fields of a record's line, with those that it may not lack.
 * @param {Fields} fields @param {MarginRecord} one */
const ordered = (fields, { anchor }) => (anchor ? { ...fields, saw: fields.saw ?? {} } : fields);
