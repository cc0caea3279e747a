// An edit or a fault that is asked about before it comes: its numbers, and why it would be refused.
import {numberWithin, shown} from "./names.mjs";

/** @typedef {import("./names.mjs").Names} Names */
/** @typedef {import("./names.mjs").Name} Name */

/** The edits and faults, and how many words each has. */
export const COSTED = new Map([["link", 2], ["unlink", 2], ["join", 1], ["leave", 1], ["point", 2], ["flag", 2]]);
const MOST_EDGES = 1_048_576;

/**
 * The numbers of an edit or a fault, 0 for a null pointer. Throws a `RangeError` or a `TypeError` for bad
 * arguments.
 * @param {Names} names
 * @param {string} word
 * @param {Name[]} given
 * @param {string} asked what is asked for, as `cost`
 */
export function numbersOfEdit(names, word, given, asked) {
  const count = COSTED.get(word);
  if (count === undefined) {
    throw new RangeError(`${[...COSTED.keys()].join(" or ")} has a ${asked}, and not ${shown(word)}`);
  }
  if (given.length !== count) {
    throw new TypeError(`${word} takes ${count === 1 ? "1 word" : "2 words"}, and not ${given.length}`);
  }
  const node = names.numberOf(given[0]), second = given[1];
  switch (word) {
    case "flag":
      return [node, numberWithin(Number(second), 1, "a flag")];
    case "point":
      return [node, names.numberOrNull(second)];
    default:
      return given.length === 1 ? [node] : [node, names.numberOf(second)];
  }
}

/**
 * The refusal of an edit or a fault; an empty text if the network would carry it out.
 * @param {{ rules: RuleName, names: number, here: Uint8Array, ends: Int32Array }} state
 * @param {string} word
 * @param {number} node
 * @param {number} other
 */
export function whyRefused({rules, names, here, ends}, word, node, other = 0) {
  if (word === "join") {
    return here[node] ? "already-present" : node > names ? "unknown-node" : "";
  }
  if (word === "flag" && rules === "hh") {
    return "no-flag";
  }
  const namesTwo = word === "link" || word === "unlink" || (word === "point" && other !== 0);
  if (!here[node] || (namesTwo && !here[other])) {
    return "unknown-node";
  }
  if (!namesTwo) {
    return "";
  }
  if (word === "point") {
    return isEdge(ends, node, other) ? "" : "not-neighbour";
  }
  if (node === other) {
    return "self-loop";
  }
  if (word === "unlink") {
    return isEdge(ends, node, other) ? "" : "not-linked";
  }
  return isEdge(ends, node, other) ? "already-linked" : ends.length >= 2 * MOST_EDGES ? "too-many-edges" : "";
}

/**
 * @param {Int32Array} ends both ends of each edge in turn, the lower one first
 * @param {number} v
 * @param {number} w
 */
function isEdge(ends, v, w) {
  const [low, high] = v < w ? [v, w] : [w, v];
  for (let at = 0; at < ends.length; at += 2) {
    if (ends[at] === low && ends[at + 1] === high) {
      return true;
    }
  }
  return false;
}
