// Spreads places by forces (Fruchterman and Reingold, 1991): edges pull, all nodes push one another. Nothing
// is random. Each round looks at all pairs: a second in all for 2,000 nodes, the most that are drawn.

const ROUNDS = 300;
const PAIRS_IN_ALL = 1e8;
const APART_ROUNDS = 50;
// how much room a node has at most, in squares of the spacing
const ROOM = 1.35;
const GRAVITY = 0.12;
const NEAREST = 0.85;

/**
 * @param {Float64Array} x
 * @param {Float64Array} y
 * @param {Float64Array} pushX
 * @param {Float64Array} pushY
 * @param {number} ideal
 */
function pushAll(x, y, pushX, pushY, ideal) {
  const square = ideal * ideal;
  for (let v = 0; v < x.length; v += 1) {
    for (let w = 0; w < v; w += 1) {
      const dx = x[v] - x[w];
      const dy = y[v] - y[w];
      const force = square / (dx * dx + dy * dy + 1e-3);
      pushX[v] += dx * force;
      pushY[v] += dy * force;
      pushX[w] -= dx * force;
      pushY[w] -= dy * force;
    }
  }
}

/**
 * @param {number[][]} lists
 * @param {Float64Array} x
 * @param {Float64Array} y
 * @param {Float64Array} pushX
 * @param {Float64Array} pushY
 * @param {number} ideal
 */
function pullAlong(lists, x, y, pushX, pushY, ideal) {
  lists.forEach((list, v) => {
    for (const w of list) {
      const dx = x[w] - x[v];
      const dy = y[w] - y[v];
      const force = Math.hypot(dx, dy) / ideal;
      pushX[v] += dx * force;
      pushY[v] += dy * force;
    }
  });
}

/**
 * So that nodes with few edges do not drift away.
 * @param {Float64Array} x
 * @param {Float64Array} y
 * @param {Float64Array} pushX
 * @param {Float64Array} pushY
 */
function pullInward(x, y, pushX, pushY) {
  const share = GRAVITY * Math.sqrt(x.length);
  for (let v = 0; v < x.length; v += 1) {
    pushX[v] -= x[v] * share;
    pushY[v] -= y[v] * share;
  }
}

/**
 * @param {Float64Array} x
 * @param {Float64Array} y
 * @param {Float64Array} pushX
 * @param {Float64Array} pushY
 * @param {number} limit
 */
function moveAll(x, y, pushX, pushY, limit) {
  for (let v = 0; v < x.length; v += 1) {
    const length = Math.hypot(pushX[v], pushY[v]);
    const share = Math.min(length, limit) / (length || 1);
    x[v] += pushX[v] * share;
    y[v] += pushY[v] * share;
  }
}

/**
 * @param {Float64Array} x
 * @param {Float64Array} y
 */
function middleGap(x, y) {
  const gaps = Array.from(x, (_, v) => {
    let least = Infinity;
    for (let w = 0; w < x.length; w += 1) {
      least = w === v ? least : Math.min(least, Math.hypot(x[v] - x[w], y[v] - y[w]));
    }
    return least;
  });
  return gaps.sort((a, b) => a - b)[gaps.length >> 1];
}

/**
 * @param {Float64Array} x
 * @param {Float64Array} y
 */
function areaOf(x, y) {
  /** @param {Float64Array} numbers */
  const width = (numbers) => numbers.reduce((a, b) => Math.max(a, b)) - numbers.reduce((a, b) => Math.min(a, b));
  return width(x) * width(y);
}

/**
 * Pushes nodes apart until no two are nearer than `least`.
 * @param {Float64Array} x
 * @param {Float64Array} y
 * @param {number} least
 */
function part(x, y, least) {
  let moved = true;
  for (let turn = 0; moved && turn < APART_ROUNDS; turn += 1) {
    moved = false;
    for (let v = 0; v < x.length; v += 1) {
      for (let w = 0; w < v; w += 1) {
        const dx = x[v] - x[w] || 1e-3 * (1 + (v % 7));
        const dy = y[v] - y[w] || 1e-3 * (1 + (w % 5));
        if (Math.abs(dx) < least && Math.abs(dy) < least && dx * dx + dy * dy < least * least) {
          const length = Math.hypot(dx, dy);
          const share = (0.52 * (least - length)) / length;
          x[v] += dx * share;
          y[v] += dy * share;
          x[w] -= dx * share;
          y[w] -= dy * share;
          moved = true;
        }
      }
    }
  }
}

/**
 * @param {Float64Array} x
 * @param {Float64Array} y
 */
function layFlat(x, y) {
  /** @param {Float64Array} numbers */
  const middle = (numbers) => numbers.reduce((a, b) => a + b, 0) / numbers.length;
  const [middleX, middleY] = [middle(x), middle(y)];
  let [xx, xy, yy] = [0, 0, 0];
  for (let v = 0; v < x.length; v += 1) {
    x[v] -= middleX;
    y[v] -= middleY;
    [xx, xy, yy] = [xx + x[v] * x[v], xy + x[v] * y[v], yy + y[v] * y[v]];
  }
  const angle = -0.5 * Math.atan2(2 * xy, xx - yy);
  const [cos, sin] = [Math.cos(angle), Math.sin(angle)];
  for (let v = 0; v < x.length; v += 1) {
    [x[v], y[v]] = [x[v] * cos - y[v] * sin, x[v] * sin + y[v] * cos];
  }
}

/**
 * Places for nodes about `spacing` apart, and no two much nearer.
 * @param {number[][]} start
 * @param {number[][]} lists
 * @param {number} spacing
 */
export function spread(start, lists, spacing) {
  // slightly off the start: nodes at one place would push each other nowhere
  const x = Float64Array.from(start, (place, v) => place[0] + Math.sin(v * 12.9898) * 2);
  const y = Float64Array.from(start, (place, v) => place[1] + Math.cos(v * 78.233) * 2);
  const pairs = (x.length * (x.length - 1)) / 2;
  const rounds = Math.max(30, Math.min(ROUNDS, Math.round(PAIRS_IN_ALL / pairs)));
  for (let round = 0; round < rounds; round += 1) {
    const [pushX, pushY] = [new Float64Array(x.length), new Float64Array(x.length)];
    pushAll(x, y, pushX, pushY, spacing);
    pullAlong(lists, x, y, pushX, pushY, spacing);
    pullInward(x, y, pushX, pushY);
    moveAll(x, y, pushX, pushY, 1.5 * spacing * (1 - round / rounds));
  }
  layFlat(x, y);
  const scale = Math.min(spacing / (middleGap(x, y) || 1), ROOM * spacing * Math.sqrt(x.length / (areaOf(x, y) || 1)));
  x.forEach((_, v) => {
    x[v] *= scale;
    y[v] *= scale;
  });
  part(x, y, NEAREST * spacing);
  return Array.from(x, (value, v) => [value, y[v]]);
}
