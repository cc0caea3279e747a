// Places for the nodes of a network: a pure function of its nodes and edges, so that a transcript has one
// drawing.
// A path or a cycle lies on a ring; any other component is spread by its distances (pivot scaling), then by
// forces.
import {spread} from "./forces.mjs";
import {placeByDistance} from "./distances.mjs";
import {lastOf} from "./lists.mjs";

/**
 * @typedef {{ order: number[], places: number[][] }} Part
 */

export const SPACING = 48;
const ROUND_RING = 60;
// how many chords a node a ring may have
const CHORDS = 0.25;
const PACKED_WIDTH_RATIO = 1.5;
// a small drawing is spread until it fills this box
const LEAST_WIDTH = 440;
const LEAST_HEIGHT = 280;
const MOST_SPREAD = 4;

/**
 * @param {number} nodes
 * @param {Link[]} edges
 */
function neighbourLists(nodes, edges) {
  const lists = Array.from({ length: nodes + 1 }, () => []);
  for (const [v, w] of edges) {
    lists[v].push(w);
    lists[w].push(v);
  }
  lists.forEach((list) => list.sort((a, b) => a - b));
  return lists;
}

/**
 * The connected components, each with its nodes in breadth-first order.
 * @param {number[][]} lists
 */
function partsOf(lists) {
  const seen = new Uint8Array(lists.length);
  const parts = [];
  for (let v = 1; v < lists.length; v += 1) {
    if (seen[v]) {
      continue;
    }
    const part = [v];
    seen[v] = 1;
    for (let at = 0; at < part.length; at += 1) {
      for (const w of lists[part[at]]) {
        if (!seen[w]) {
          seen[w] = 1;
          part.push(w);
        }
      }
    }
    parts.push(part);
  }
  return parts;
}

/**
 * The nodes of a path or a cycle in order; null for other components.
 * @param {number[]} part
 * @param {number[][]} lists
 */
function alongRing(part, lists) {
  if (part.length < 3 || part.some((v) => lists[v].length === 0 || lists[v].length > 2)) {
    return null;
  }
  let at = part.find((v) => lists[v].length === 1) ?? Math.min(...part);
  const order = [];
  const seen = new Set();
  while (at !== undefined) {
    order.push(at);
    seen.add(at);
    at = lists[at].find((w) => !seen.has(w));
  }
  return order.length === part.length ? order : null;
}

/**
 * A component lies on a ring if its first edges formed a path or a cycle and few others ever came.
 * @param {number[]} part
 * @param {number} nodes
 * @param {Link[]} edges
 */
export function ringOf(part, nodes, edges) {
  const inside = new Set(part);
  const own = edges.filter(([v]) => inside.has(v));
  if (own.length > part.length * (1 + CHORDS)) {
    return null;
  }
  for (const count of [part.length, part.length - 1]) {
    const ring = alongRing(part, neighbourLists(nodes, own.slice(0, count)));
    if (ring) {
      return ring;
    }
  }
  return null;
}

/**
 * @param {number} count
 * @param {number} radius
 */
function onCircle(count, radius) {
  return Array.from({ length: count }, (_, at) => {
    const angle = (2 * Math.PI * at) / count - Math.PI / 2;
    return [radius * Math.cos(angle), radius * Math.sin(angle)];
  });
}

/**
 * A long ring runs outward along one spoke and inward along the next, to take less room than a circle.
 * @param {number} count
 */
function onSpokes(count) {
  const spokes = 2 * Math.max(3, Math.round(count / (2 * Math.sqrt(count / (2 * Math.PI)))));
  const inner = (spokes * SPACING) / (2 * Math.PI);
  const places = [];
  for (let spoke = 0; spoke < spokes; spoke += 1) {
    const length = Math.floor((count * (spoke + 1)) / spokes) - Math.floor((count * spoke) / spokes);
    const angle = (2 * Math.PI * spoke) / spokes - Math.PI / 2;
    for (let at = 0; at < length; at += 1) {
      const radius = inner + SPACING * (spoke % 2 === 0 ? at : length - 1 - at);
      places.push([radius * Math.cos(angle), radius * Math.sin(angle)]);
    }
  }
  return places;
}

/** @param {number} count */
function ringPlaces(count) {
  return count > ROUND_RING ? onSpokes(count) : onCircle(count, SPACING / (2 * Math.sin(Math.PI / count)));
}

/**
 * @param {number[]} part
 * @param {number[][]} lists
 * @param {Link[]} edges
 */
function placesOf(part, lists, edges) {
  if (part.length < 3) {
    return { order: part, places: part.map((_, at) => [at * 1.5 * SPACING, 0]) };
  }
  const ring = ringOf(part, lists.length - 1, edges);
  if (ring) {
    return { order: ring, places: ringPlaces(ring.length) };
  }
  const placeIn = new Map(part.map((v, at) => [v, at]));
  const inside = part.map((v) => lists[v].map((w) => placeIn.get(w)));
  return { order: part, places: spread(placeByDistance(inside, SPACING), inside, SPACING) };
}

/** @param {number[][]} places */
function boxOf(places) {
  const [xs, ys] = [places.map((place) => place[0]), places.map((place) => place[1])];
  /** @param {number[]} numbers */
  const least = (numbers) => numbers.reduce((a, b) => Math.min(a, b));
  /** @param {number[]} numbers */
  const most = (numbers) => numbers.reduce((a, b) => Math.max(a, b));
  return {
    left: least(xs),
    top: least(ys),
    width: most(xs) - least(xs) + SPACING,
    height: most(ys) - least(ys) + SPACING
  };
}

/**
 * Arranges the components in rows, the highest first.
 * @param {Part[]} parts
 */
function pack(parts) {
  const boxes = parts.map((part) => ({...part, box: boxOf(part.places), at: 0, shift: [0, 0] }));
  boxes.sort((a, b) => b.box.height - a.box.height || a.order[0] - b.order[0]);
  const area = boxes.reduce((sum, { box }) => sum + box.width * box.height, 0);
  const widest = boxes.reduce((most, { box }) => Math.max(most, box.width), 0);
  const rowWidth = Math.max(widest, Math.sqrt(area * PACKED_WIDTH_RATIO));
  /** @type {{ x: number, y: number, height: number, parts: (typeof boxes) }[]} */
  const rows = [{ x: 0, y: 0, height: 0, parts: [] }];
  for (const part of boxes) {
    const last = lastOf(rows);
    const fits = last.x === 0 || last.x + part.box.width <= rowWidth + 1;
    const row = fits ? last : { x: 0, y: last.y + last.height, height: 0, parts: [] };
    if (!fits) {
      rows.push(row);
    }
    part.at = row.x;
    row.x += part.box.width;
    row.height = Math.max(row.height, part.box.height);
    row.parts.push(part);
  }
  const width = rows.reduce((most, row) => Math.max(most, row.x), 0);
  for (const row of rows) {
    for (const part of row.parts) {
      part.shift =
        [part.at + (width - row.x) / 2 - part.box.left, row.y + (row.height - part.box.height) / 2 - part.box.top];
    }
  }
  return { boxes, width, height: lastOf(rows).y + lastOf(rows).height };
}

/**
 * A place for each name, in a box with its upper left corner at 0, 0; `edges` are in order of arrival.
 * @param {number} nodes
 * @param {Link[]} edges
 * @returns {Layout}
 */
export function layOut(nodes, edges) {
  const x = new Float64Array(nodes + 1);
  const y = new Float64Array(nodes + 1);
  const lists = neighbourLists(nodes, edges);
  const parts = partsOf(lists).map((part) => placesOf(part, lists, edges));
  const { boxes, width, height } = pack(parts);
  for (const { order, places, shift } of boxes) {
    order.forEach((v, at) => {
      x[v] = places[at][0] + shift[0] + SPACING / 2;
      y[v] = places[at][1] + shift[1] + SPACING / 2;
    });
  }
  return { x, y, width, height };
}

/**
 * Spreads a small drawing to the size that a page shows well; nodes keep their size.
 * @param {Layout} layout
 * @returns {Layout}
 */
export function fill({x, y, width, height}) {
  const wide = width > SPACING ? (LEAST_WIDTH - SPACING) / (width - SPACING) : Infinity;
  const high = height > SPACING ? (LEAST_HEIGHT - SPACING) / (height - SPACING) : Infinity;
  const by = Math.max(1, Math.min(wide, high, MOST_SPREAD));
  /** @param {number} size */
  const spreadTo = (size) => (size - SPACING) * by + SPACING;
  const [wholeWidth, wholeHeight] = [Math.max(LEAST_WIDTH, spreadTo(width)), Math.max(LEAST_HEIGHT, spreadTo(height))];
  const [padX, padY] = [(wholeWidth - spreadTo(width)) / 2, (wholeHeight - spreadTo(height)) / 2];
  /**
   * @param {Float64Array} places
   * @param {number} pad
   */
  const along = (places, pad) => places.map((at) => (at - SPACING / 2) * by + SPACING / 2 + pad);
  return { x: along(x, padX), y: along(y, padY), width: wholeWidth, height: wholeHeight };
}
