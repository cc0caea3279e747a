// The nodes' own names, if the page has them. The transcript has the numbers, so both are shown.

/**
 * Of each node, in the order of the numbers, its label and the whole name; nothing if it has no name.
 * @type {string[][]}
 */
let known = [];

/** @param {string[][] | null} names null if the numbers are the names */
export function useNames(names) {
  known = names ?? [];
}

/**
 * @param {number} v
 * @returns {string | null}
 */
export function labelOf(v) {
  return known[v - 1]?.[0] ?? null;
}

/**
 * The number of a node, with its whole name if it has one.
 * @param {number} v
 */
export function wholeOf(v) {
  const name = known[v - 1]?.[1];
  return name === undefined ? `node ${v}` : `${name} (node ${v})`;
}

/**
 * A node in a sentence. Its label is isolated, so that a name in a script from right to left does not reorder
 * the sentence.
 * @param {number} v
 */
export function told(v) {
  const label = labelOf(v);
  return label === null ? String(v) : `${v} (\u2068${label}\u2069)`;
}
