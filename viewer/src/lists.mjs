// Ends of lists, for browsers older than `at` and `findLast`.

/**
 * The last item of a list that is not empty.
 * @template Item
 * @param {Item[]} list
 */
export function lastOf(list) {
  return list[list.length - 1];
}

/**
 * @template Item
 * @param {Item[]} list
 * @param {(item: Item) => boolean} isWanted
 */
export function lastWhere(list, isWanted) {
  for (let at = list.length - 1; at >= 0; at -= 1) {
    if (isWanted(list[at])) {
      return list[at];
    }
  }
  return undefined;
}
