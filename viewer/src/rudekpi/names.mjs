
/** @typedef {any} Name */

export const MOST_NODES = 65_535;
export const MOST_TURNS = 1_000_000;
const MOST_SEED = 2n ** 64n - 1n;

/**
 * A value as an error shows it.
 * @param {any} value
 */
export function shown(value) {
  return typeof value === "string" ? JSON.stringify(value) : String(value);
}

/**
 * A whole number from 0 to `most`. Throws a `TypeError` or a `RangeError` for any other value.
 * @param {any} given
 * @param {number} most
 * @param {string} what
 * @returns {number}
 */
export function numberWithin(given, most, what) {
  if (!Number.isInteger(given)) {
    throw new TypeError(`${what} is a whole number, and not ${shown(given)}`);
  }
  if (given < 0 || given > most) {
    throw new RangeError(`${what} is 0 to ${most}, and not ${given}`);
  }
  return given;
}

/**
 * A seed, 0 to 2⁶⁴ - 1: a whole number, or a `bigint`.
 * @param {any} given
 */
export function seedOf(given) {
  if (typeof given !== "bigint" && !Number.isInteger(given)) {
    throw new TypeError(`a seed is a whole number, and not ${shown(given)}`);
  }
  const seed = BigInt(given);
  if (seed < 0n || seed > MOST_SEED) {
    throw new RangeError(`a seed is 0 to ${MOST_SEED}, and not ${seed}`);
  }
  return seed;
}

/**
 * The caller's names, distinct and none null. Throws a `TypeError` or a `RangeError`.
 * @param {any} nodes
 * @returns {Name[]}
 */
function ownNames(nodes) {
  const what = "nodes are a number or a list of names, of which none is null";
  if (typeof nodes === "string" || typeof nodes?.[Symbol.iterator] !== "function") {
    throw new TypeError(`${what}, and not ${shown(nodes)}`);
  }
  const names = [...nodes];
  if (names.some((name) => name === null || name === undefined)) {
    throw new TypeError(what);
  }
  const seen = new Set();
  for (const name of names) {
    if (seen.has(name)) {
      throw new RangeError(`two nodes have the name ${shown(name)}`);
    }
    seen.add(name);
  }
  return names;
}

/** The numbers 1 to a count as names, or the caller's own names with the numbers 1, 2, .. in their order. */
export class Names {
  /** @param {any} nodes */
  constructor(nodes) {
    /**
     * The caller's own names, or null.
     * @type {Name[] | null}
     */
    this.own = typeof nodes === "number" ? null : ownNames(nodes);
    this.numbers = new Map(this.own?.map((name, at) => [name, at + 1]));
    this.count = numberWithin(this.own ? this.own.length : nodes, MOST_NODES, "a number of nodes");
  }

  all() {
    return this.own ? [...this.own] : Array.from({ length: this.count }, (_, at) => at + 1);
  }

  /**
   * The number of a name. Throws a `TypeError` or a `RangeError` for a value that is no name. A number up to
   * 65,535 passes even if no node has it; the network then refuses it.
   * @param {Name} name
   * @returns {number}
   */
  numberOf(name) {
    if (this.own === null) {
      return name > 0 && name <= MOST_NODES && Number.isInteger(name) ? name : this.refuse(name);
    }
    return this.numbers.get(name) ?? this.refuse(name);
  }

  /**
   * @param {any} name
   * @returns {number}
   */
  refuse(name) {
    if (this.own) {
      throw new RangeError(`no node has the name ${shown(name)}`);
    }
    if (!Number.isInteger(name)) {
      throw new TypeError(`a node's name is a number here, 1 to ${MOST_NODES}, and not ${shown(name)}`);
    }
    throw new RangeError(`a node's name is 1 to ${MOST_NODES}, and not ${name}`);
  }

  /** @param {Name | null} name */
  numberOrNull(name) {
    return name === null ? 0 : this.numberOf(name);
  }

  /**
   * @param {number} number
   * @returns {Name}
   */
  nameOf(number) {
    if (!(number > 0 && number <= this.count)) {
      throw new RangeError(`no node has the number ${number}`);
    }
    return this.own === null ? number : this.own[number - 1];
  }

  /**
   * The value of a pointer: a name, or null for 0.
   * @param {number} number
   * @returns {Name | null}
   */
  named(number) {
    return number === 0 ? null : this.nameOf(number);
  }
}
