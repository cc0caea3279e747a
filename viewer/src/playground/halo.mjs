// The halo: the nodes that the intended act would reach. After it only these and the nodes not at rest before
// can move. The engine computes the reach of the lines listed here.

/** @typedef {import("./seen.mjs").Seen} Seen */
/** @typedef {import("./tools.mjs").Tools} Tools */

/**
 * All lines that may write a node's pointer.
 * @param {Seen} seen
 * @param {number} node
 */
function pointersOf(seen, node) {
  return [`point ${node} -`, ...[...seen.neighbours[node]].map((other) => `point ${node} ${other}`)];
}

/**
 * The edits and faults of a click: none if it only reads or moves, several if a second click will choose.
 * @param {Tools} tools
 * @param {Seen} seen
 * @param {Thing | null} thing
 * @returns {string[]}
 */
export function linesAt({name, from}, seen, thing) {
  if (thing?.low) {
    return name === "cut" ? [`unlink ${thing.low} ${thing.high}`] : [];
  }
  if (!thing?.node) {
    return [];
  }
  const { node } = thing;
  if (from !== null) {
    return linesBetween(name, from, thing);
  }
  switch (name) {
    case "node":
      return [`leave ${node}`];
    case "flag":
      return [`flag ${node} ${1 - seen.flag[node]}`];
    case "point":
      return pointersOf(seen, node);
    default:
      return [];
  }
}

/**
 * The edit or fault of a line drawn from a node to a thing.
 * @param {string} name
 * @param {number} node
 * @param {Thing | null} thing
 * @returns {string[]}
 */
export function linesBetween(name, node, thing) {
  const other = thing?.node && thing.node !== node ? thing.node : 0;
  if (name === "point") {
    return [`point ${node} ${other || "-"}`];
  }
  return name === "link" && other ? [`link ${node} ${other}`] : [];
}

/**
 * The nodes that one of the lines would reach, ascending.
 * @param {import("../rudekpi/engine.mjs").Session} session
 * @param {string[]} lines
 */
export function reachOf(session, lines) {
  const found = new Set(lines.flatMap((line) => session.reachOf(line)));
  return [...found].sort((a, b) => a - b);
}
