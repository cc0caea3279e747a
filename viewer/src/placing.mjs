// Places a card in a room: near its thing, and covering little.

const GAP = 22;
const BORDER = 4;
// places that are tried, across and down
const ACROSS = 16;
const DOWN = 12;
// covering nothing rather than everything is worth this many pixels of distance
const WORTH = 500;

/**
 * @param {Place} place
 * @param {Box} box
 */
function distanceToBox({ x, y }, { left, top, width, height }) {
  /**
   * @param {number} at
   * @param {number} from
   * @param {number} size
   */
  const beyond = (at, from, size) => Math.max(from - at, 0, at - from - size);
  return Math.hypot(beyond(x, left, width), beyond(y, top, height));
}

/**
 * @param {Place} place
 * @param {{ left: number, right: number, top: number, bottom: number }} room
 * @param {Size} size
 */
function boxes(place, room, { width, height }) {
  const [left, right] = [room.left + BORDER, Math.max(room.left + BORDER, room.right - width - BORDER)];
  const [top, bottom] = [room.top + BORDER, Math.max(room.top + BORDER, room.bottom - height - BORDER)];
  const level = Math.max(top, Math.min(bottom, place.y - height / 3));
  const beside = [place.x + GAP, place.x - GAP - width]
                   .filter((at) => at >= left && at <= right)
                   .map((at) => ({ left: at, top: level, width, height }));
  /**
   * @param {number} from
   * @param {number} to
   * @param {number} at
   * @param {number} steps
   */
  const share = (from, to, at, steps) => from + ((to - from) * at) / (steps - 1);
  const over = Array.from({ length: ACROSS * DOWN }, (_, at) => ({
                                                       left: share(left, right, at % ACROSS, ACROSS),
                                                       top: share(top, bottom, Math.floor(at / ACROSS), DOWN),
                                                       width,
                                                       height,
                                                     }));
  return [...beside, ...over];
}

/**
 * `shareIn` returns the share of all things that a box covers.
 * @param {Place} place
 * @param {Size} size
 * @param {(box: Box) => number} shareIn
 * @param {{ left: number, right: number, top: number, bottom: number }} room
 */
export function bestBox(place, room, size, shareIn) {
  /** @param {Box} box */
  const cost = (box) => {
    const far = distanceToBox(place, box);
    return WORTH * shareIn(box) + far + (far < GAP - 1 ? 2 * WORTH : 0);
  };
  const costs = boxes(place, room, size).map((box) => ({ box, cost: cost(box) }));
  return costs.reduce((best, next) => (next.cost < best.cost ? next : best)).box;
}
