// Lines of a plot as paths. Each value holds until the next entry. If entries share a pixel, the line is
// their mean, in a band from the least to the greatest.

// the width in pixels of a column for several entries
const COLUMN = 2;

/**
 * The step, 1, 2 or 5 times a power of ten, that fits at most `most` times into a range.
 * @param {number} range
 * @param {number} most
 */
export function stepOf(range, most) {
  const least = Math.max(1, range / Math.max(1, most));
  const power = 10 ** Math.floor(Math.log10(least));
  return [1, 2, 5, 10].map((factor) => factor * power).find((step) => step >= least);
}

/**
 * How many entries share a column of a plot for 0 to `last`, `width` pixels wide; 1 if each has its own.
 * @param {number} last
 * @param {number} width
 */
export function strideOf(last, width) {
  return last + 1 <= width ? 1 : Math.ceil(((last + 1) * COLUMN) / width);
}

/**
 * Least, greatest and mean value, and middle place, of each column of `stride` values.
 * @param {(at: number) => number} valueAt
 * @param {number} last
 * @param {number} stride
 */
export function columnsOf(valueAt, last, stride) {
  const columns = [];
  for (let from = 0; from <= last; from += stride) {
    const to = Math.min(last, from + stride - 1);
    let [least, most, sum] = [Infinity, -Infinity, 0];
    for (let k = from; k <= to; k += 1) {
      const value = valueAt(k);
      least = Math.min(least, value);
      most = Math.max(most, value);
      sum += value;
    }
    columns.push({ middle: (from + to) / 2, least, most, mean: sum / (to - from + 1) });
  }
  return columns;
}

/**
 * @param {(at: number) => number} valueAt
 * @param {number} last
 * @param {(at: number) => number} xOf
 * @param {(value: number) => number} yOf
 */
export function stepPath(valueAt, last, xOf, yOf) {
  const parts = [`M${xOf(0).toFixed(1)} ${yOf(valueAt(0)).toFixed(1)}`];
  for (let k = 1; k <= last; k += 1) {
    if (valueAt(k) !== valueAt(k - 1)) {
      parts.push(`H${xOf(k).toFixed(1)}V${yOf(valueAt(k)).toFixed(1)}`);
    }
  }
  return `${parts.join("")}H${xOf(last).toFixed(1)}`;
}

/**
 * @param {Column[]} columns
 * @param {(at: number) => number} xOf
 * @param {(value: number) => number} yOf
 */
export function meanPath(columns, xOf, yOf) {
  return `M${columns.map(({ middle, mean }) => `${xOf(middle).toFixed(1)} ${yOf(mean).toFixed(1)}`).join("L")}`;
}

/**
 * @param {Column[]} columns
 * @param {(at: number) => number} xOf
 * @param {(value: number) => number} yOf
 */
export function bandPath(columns, xOf, yOf) {
  const over = columns.map(({ middle, most }) => `${xOf(middle).toFixed(1)} ${yOf(most).toFixed(1)}`);
  const under = columns.map(({ middle, least }) => `${xOf(middle).toFixed(1)} ${yOf(least).toFixed(1)}`).reverse();
  return `M${[...over, ...under].join("L")}Z`;
}
