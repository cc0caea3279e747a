// Whom a daemon of the page lets move at once, of the enabled nodes; the engine judges each choice.

/** The daemons that let several nodes move at once, which only rules with flags allow. */
export const OF_MANY = ["all", "local", "chance"];

/**
 * The nodes in a random order.
 * @param {number[]} nodes
 * @param {() => number} draw from 0 up to but not including 1
 */
function shuffled(nodes, draw) {
  const order = nodes.slice();
  for (let at = order.length - 1; at > 0; at -= 1) {
    const other = Math.floor(draw() * (at + 1));
    [order[at], order[other]] = [order[other], order[at]];
  }
  return order;
}

/**
 * Nodes in a random order, each unless a neighbour of it is taken already: no two are neighbours, and none
 * could be added.
 * @param {number[]} enabled
 * @param {Set<number>[]} neighbours
 * @param {() => number} draw
 */
function locallyCentral(enabled, neighbours, draw) {
  const taken = new Set();
  for (const node of shuffled(enabled, draw)) {
    if (![...neighbours[node]].some((other) => taken.has(other))) {
      taken.add(node);
    }
  }
  return enabled.filter((node) => taken.has(node));
}

/**
 * Each node with the given probability; if none is drawn, one at random.
 * @param {number[]} enabled
 * @param {number} probability
 * @param {() => number} draw
 */
function eachWith(enabled, probability, draw) {
  const drawn = enabled.filter(() => draw() < probability);
  return drawn.length > 0 ? drawn : [enabled[Math.floor(draw() * enabled.length)]];
}

/**
 * The nodes that a daemon chooses, ascending; `enabled` ascends and has one at least.
 * @param {string} daemon one of `OF_MANY`
 * @param {number[]} enabled
 * @param {{ neighbours: Set<number>[], probability: number, draw: () => number }} by
 */
export function chosenBy(daemon, enabled, {neighbours, probability, draw}) {
  switch (daemon) {
    case "local":
      return locallyCentral(enabled, neighbours, draw);
    case "chance":
      return eachWith(enabled, probability, draw);
    default:
      return enabled;
  }
}
