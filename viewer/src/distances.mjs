// Places whose distances resemble those along the edges: classical scaling with a few pivots (Brandes and
// Pich, 2007).

const PIVOTS = 30;
const ROUNDS = 60;

/**
 * @param {number} start
 * @param {number[][]} lists
 */
function stepsFrom(start, lists) {
  const steps = new Float64Array(lists.length).fill(-1);
  steps[start] = 0;
  const queue = [start];
  for (let at = 0; at < queue.length; at += 1) {
    for (const w of lists[queue[at]]) {
      if (steps[w] < 0) {
        steps[w] = steps[queue[at]] + 1;
        queue.push(w);
      }
    }
  }
  return steps;
}

/**
 * Squared distances from nodes that lie far apart, a column for each pivot.
 * @param {number[][]} lists
 */
function pivotColumns(lists) {
  const nearest = new Float64Array(lists.length).fill(Infinity);
  const columns = [];
  for (let pivot = 0; columns.length < Math.min(PIVOTS, lists.length);) {
    const steps = stepsFrom(pivot, lists);
    steps.forEach((count, v) => {
      nearest[v] = Math.min(nearest[v], count);
    });
    columns.push(steps.map((count) => count * count));
    pivot = nearest.indexOf(nearest.reduce((a, b) => Math.max(a, b)));
  }
  return columns;
}

/** @param {number[] | Float64Array} numbers */
function mean(numbers) {
  return [...numbers].reduce((a, b) => a + b, 0) / numbers.length;
}

/** @param {Float64Array[]} columns */
function centre(columns) {
  const columnMeans = columns.map(mean);
  const rowMeans = columns[0].map((_, v) => mean(columns.map((column) => column[v])));
  const all = mean(columnMeans);
  columns.forEach(
    (column, at) => column.forEach((value, v) => (column[v] = value - columnMeans[at] - rowMeans[v] + all)));
}

/**
 * @param {ArrayLike<number>} a
 * @param {ArrayLike<number>} b
 */
function product(a, b) {
  let sum = 0;
  for (let at = 0; at < a.length; at += 1) {
    sum += a[at] * b[at];
  }
  return sum;
}

/**
 * The direction of the greatest products, at a right angle to those found before.
 * @param {number[][]} products
 * @param {number[][]} before
 */
function principal(products, before) {
  let vector = products.map((_, at) => 1 / (at + 1) + (at % 2));
  for (let round = 0; round < ROUNDS; round += 1) {
    vector = products.map((row) => product(row, vector));
    for (const other of before) {
      const along = product(vector, other);
      vector = vector.map((value, at) => value - along * other[at]);
    }
    const length = Math.sqrt(product(vector, vector)) || 1;
    vector = vector.map((value) => value / length);
  }
  return vector;
}

/**
 * Places for the nodes 0, 1, .., with edges about `spacing` long.
 * @param {number[][]} lists
 * @param {number} spacing
 */
export function placeByDistance(lists, spacing) {
  const columns = pivotColumns(lists);
  centre(columns);
  const products = columns.map((a) => columns.map((b) => product(a, b)));
  const first = principal(products, []);
  const second = principal(products, [first]);
  /**
   * @param {number[]} vector
   * @param {number} v
   */
  const along = (vector, v) => columns.reduce((sum, column, at) => sum + column[v] * vector[at], 0);
  const places = lists.map((_, v) => [along(first, v), along(second, v)]);
  let [total, count] = [0, 0];
  lists.forEach(
    (list, v) => list.forEach((w) => {
      total += Math.hypot(places[v][0] - places[w][0], places[v][1] - places[w][1]);
      count += 1;
    }),
  );
  const scale = total > 0 ? (spacing * count) / total : 1;
  return places.map(([x, y]) => [x * scale, y * scale]);
}
