// The replies of a network, and the texts of turns and bases parsed into them. rudekpi.d.ts documents the
// replies.
import {movesOf, readBase, readEntry} from "../transcript.mjs";

/** @typedef {import("./names.mjs").Names} Names */
/** @typedef {import("./names.mjs").Name} Name */

/** The rules, by the numbers that rows have. */
export const RULES = ["", "update", "marry", "seduce", "abandon"];

export const REFUSALS = [
  "", "unknown-node", "self-loop", "already-linked", "not-linked", "too-many-edges", "not-neighbour", "no-flag",
  "empty-choice", "not-central", "chosen-twice", "not-enabled", "bad-target", "already-present"
];

export class Wish {
  /**
   * @param {Name} node
   * @param {Name} target
   */
  constructor(node, target) {
    this.node = node;
    this.target = target;
  }
}

export class Matching {
  /**
   * @param {number} entry
   * @param {[Name, Name][]} pairs
   */
  constructor(entry, pairs) {
    this.entry = entry;
    this.pairs = pairs;
    this.partners = new Map(pairs.flatMap(([a, b]) => [[a, b], [b, a]]));
  }

  /**
   * @param {Name} node
   * @returns {Name | null}
   */
  partner(node) {
    return this.partners.get(node) ?? null;
  }
}

/**
 * @template {object} List
 * @template {object} Beside
 * @param {List} list
 * @param {Beside} beside
 * @returns {List & Beside}
 */
export function listWith(list, beside) {
  return Object.assign(list, beside);
}

/**
 * @param {Names} names
 * @param {number} entry
 * @param {Uint32Array} rows
 */
export function movesOfRows(names, entry, rows) {
  const moves = [];
  for (let at = 0; at < rows.length; at += 3) {
    moves.push({ node: names.nameOf(rows[at]), rule: RULES[rows[at + 1]], target: names.named(rows[at + 2]) });
  }
  return listWith(moves, { entry });
}

/**
 * @param {Names} names
 * @param {number} entry
 * @param {Uint32Array} rows
 */
export function enabledOfRows(names, entry, rows) {
  const enabled = new Map();
  for (let at = 0; at < rows.length; at += 3) {
    enabled.set(names.nameOf(rows[at]), RULES[rows[at + 1]]);
  }
  return listWith(enabled, { entry });
}

/**
 * @param {Names} names
 * @param {number} entry
 * @param {Uint32Array} rows
 */
export function matchingOfRows(names, entry, rows) {
  /** @type {[Name, Name][]} */
  const pairs = [];
  for (let at = 0; at < rows.length; at += 3) {
    pairs.push([names.nameOf(rows[at]), names.nameOf(rows[at + 2])]);
  }
  return new Matching(entry, pairs);
}

/**
 * @param {Names} names
 * @param {string} line
 */
export function movesOfLine(names, line) {
  const entry = readEntry(line);
  const moves =
    movesOf(entry).map(({ node, rule, target }) => ({ node: names.nameOf(node), rule, target: names.named(target) }));
  return listWith(moves, { entry: entry.number });
}

/**
 * @param {Names} names
 * @param {string} line
 */
export function faultOfLine(names, line) {
  const { number, event } = readEntry(line);
  const [kind, node, value] = event.split(" ");
  const register = kind === "flag" ? "flag" : "pointer";
  const written = kind === "flag" ? value === "1" : names.named(value === "-" ? 0 : Number(value));
  return { entry: number, node: names.nameOf(Number(node)), register, value: written };
}

/**
 * @param {Names} names
 * @param {string} text
 */
export function baseOf(names, text) {
  const { number, spent, state: { here, pointers, flags, ends } } = readBase(text, 0);
  const nodes = new Map();
  here.forEach((present, v) => {
    if (present) {
      nodes.set(names.nameOf(v), { pointer: names.named(pointers[v]), flag: flags[v] === 1 });
    }
  });
  /** @type {[Name, Name][]} */
  const edges = [];
  for (let at = 0; at < ends.length; at += 2) {
    edges.push([names.nameOf(ends[at]), names.nameOf(ends[at + 1])]);
  }
  return { number, spent, nodes, edges };
}
