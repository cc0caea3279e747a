// Finds the node or edge at a place of a drawing.

/**
 * @param {number} x
 * @param {number} y
 * @param {number[]} one
 * @param {number[]} other
 */
export function distanceToStretch(x, y, [x1, y1], [x2, y2]) {
  const [dx, dy] = [x2 - x1, y2 - y1];
  const square = dx * dx + dy * dy;
  const share = square === 0 ? 0 : Math.min(1, Math.max(0, ((x - x1) * dx + (y - y1) * dy) / square));
  return Math.hypot(x - x1 - share * dx, y - y1 - share * dy);
}

/**
 * @param {Layout} layout
 * @param {import("./machine.mjs").Machine} machine
 * @param {number} x
 * @param {number} y
 * @param {number} within
 */
function nearestNode(layout, machine, x, y, within) {
  let [found, least] = [0, within];
  for (let v = 1; v <= machine.nodes; v += 1) {
    const far = machine.here[v] ? Math.hypot(x - layout.x[v], y - layout.y[v]) : Infinity;
    if (far <= least) {
      [found, least] = [v, far];
    }
  }
  return found;
}

/**
 * The present node within `radius` and `reach`; else the edge within `reach`; else null.
 * @param {Layout} layout
 * @param {import("./machine.mjs").Machine} machine
 * @param {number} x
 * @param {number} y
 * @param {number} radius
 * @param {number} reach
 */
export function thingAt(layout, machine, x, y, radius, reach) {
  const node = nearestNode(layout, machine, x, y, radius + reach);
  if (node) {
    return { node };
  }
  /** @type {Thing | null} */
  let found = null;
  let least = reach;
  for (const [low, high] of machine.edges()) {
    const far = distanceToStretch(x, y, [layout.x[low], layout.y[low]], [layout.x[high], layout.y[high]]);
    if (far <= least) {
      [found, least] = [{ low, high }, far];
    }
  }
  return found;
}
