// Places of nodes: those of a preset, or found by the layout of the transcripts' page. Hands may move nodes,
// and newcomers find room.
import {fill, layOut, SPACING} from "../layout.mjs";

// a unit of a preset's places
const UNIT = 62;
const BORDER = SPACING / 2;
// how many places a newcomer tries, across and down
const ACROSS = 24;
const DOWN = 16;

/**
 * @param {Layout} layout
 * @param {number} names
 * @returns {Layout}
 */
function forNames({ x, y, width, height }, names) {
  /** @param {Float64Array} from */
  const longer = (from) => {
    const made = new Float64Array(names + 1);
    made.set(from.subarray(0, names + 1));
    return made;
  };
  return { x: longer(x), y: longer(y), width, height };
}

/**
 * Places for a network of `names` names: its own for its first nodes, if it has any; else computed from its
 * links.
 * @param {Network} network
 * @param {number} names
 */
export function placesOf({nodes, links, places}, names) {
  if (!places) {
    return forNames(fill(layOut(nodes, links)), names);
  }
  const [xs, ys] = [0, 1].map((axis) => places.map((place) => place[axis] * UNIT));
  const [left, top] = [xs, ys].map((numbers) => numbers.reduce((a, b) => Math.min(a, b)));
  const sizes = [xs, ys].map((numbers, axis) => numbers.reduce((a, b) => Math.max(a, b)) - [left, top][axis] + SPACING);
  /**
   * @param {number[]} numbers
   * @param {number} from
   */
  const along = (numbers, from) => Float64Array.from([0, ...numbers.map((at) => at - from + BORDER)]);
  return forNames(fill({ x: along(xs, left), y: along(ys, top), width: sizes[0], height: sizes[1] }), names);
}

/**
 * Gives a layout the picture's form, width over height, with its content in the middle.
 * @param {Layout} layout
 * @param {number} form
 */
export function frame(layout, form) {
  const { x, y, width, height } = layout;
  const [wide, high] = [Math.max(width, height * form), Math.max(height, width / form)];
  layout.x = x.map((at) => at + (wide - width) / 2);
  layout.y = y.map((at) => at + (high - height) / 2);
  Object.assign(layout, { width: wide, height: high, framed: true });
}

/**
 * The nearest place inside the drawing.
 * @param {Size} size
 * @param {number} x
 * @param {number} y
 */
export function within({width, height}, x, y) {
  /**
   * @param {number} at
   * @param {number} size
   */
  const clamp = (at, size) => Math.min(size - BORDER, Math.max(BORDER, at));
  return [clamp(x, width), clamp(y, height)];
}

/**
 * The place farthest from all present nodes.
 * @param {Layout} layout
 * @param {Uint8Array} here
 */
export function freePlace(layout, here) {
  const { x, y, width, height } = layout;
  const candidates = Array.from(
    { length: ACROSS * DOWN },
    (_, at) =>
      [BORDER + ((width - 2 * BORDER) * (at % ACROSS)) / (ACROSS - 1),
       BORDER + ((height - 2 * BORDER) * Math.floor(at / ACROSS)) / (DOWN - 1),
  ]);
  /** @param {number[]} place */
  const room = ([px, py]) =>
    x.reduce((least, at, v) => (here[v] ? Math.min(least, Math.hypot(at - px, y[v] - py)) : least), Infinity);
  return candidates.map((place) => ({ place, room: room(place) }))
    .reduce((best, next) => (next.room > best.room ? next : best))
    .place;
}
