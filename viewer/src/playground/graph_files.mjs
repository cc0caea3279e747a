// Graph files, read as the Python client reads them: edge lists, DIMACS, METIS and node-link JSON. A
// malformed line is refused with its number: no graph is ever mistaken for another.
import {grouped} from "../numbers.mjs";
import {MOST_NODES} from "./presets.mjs";

/** More links than this are too many to draw. */
export const MOST_LINKS = 5000;
const NUMBER = /^(?:0|[1-9]\d{0,8})$/;
const WEIGHT = /^[-+]?(?:\d+\.?\d*|\.\d+)(?:[eE][-+]?\d+)?$/;
const LONGEST_SHOWN = 60;

/** `text` is the wrong line, or empty. */
export class GraphFault extends Error {
  /**
   * @param {string} said
   * @param {string} text
   */
  constructor(said, text = "") {
    super(said);
    this.text = text;
  }
}

/** @typedef {{ number: number, words: string[], text: string }} Line */

/**
 * @param {Line} line
 * @param {string} why
 */
function wrong({ number, text }, why) {
  return new GraphFault(`line ${number} ${why}`, text.slice(0, LONGEST_SHOWN));
}

/**
 * @param {string} text
 * @param {(words: string[]) => boolean} isComment
 * @returns {Line[]}
 */
function linesOf(text, isComment) {
  const all = text.split(/\r\n|\n|\r/)
                .map((line, at) => ({ number: at + 1, words: line.split(/[ \t]+/).filter(Boolean), text: line }));
  return all.filter(({ words }) => words.length > 0 && !isComment(words));
}

/**
 * @param {Line} line
 * @param {string} word
 * @param {number} least
 * @param {number} most
 * @param {string} what
 */
function numberIn(line, word, least, most, what) {
  if (!NUMBER.test(word ?? "") || Number(word) < least || Number(word) > most) {
    throw wrong(line, `has to name ${what}, a number from ${least} to ${grouped(most)}`);
  }
  return Number(word);
}

/** A link given from both ends counts once. */
class Collected {
  constructor() {
    /** @type {Map<string, number>} */
    this.names = new Map();
    /** @type {Map<string, [string, string]>} */
    this.links = new Map();
  }

  /** @param {string} name */
  node(name) {
    if (!this.names.has(name)) {
      this.names.set(name, this.names.size + 1);
    }
  }

  /**
   * @param {string} one
   * @param {string} other
   */
  link(one, other) {
    this.node(one);
    this.node(other);
    const [low, high] = /** @type {number[]} */ ([this.names.get(one), this.names.get(other)]);
    this.links.set(low < high ? `${low} ${high}` : `${high} ${low}`, [one, other]);
  }

  /**
   * The network: nodes are numbered in the order of their names if all are numbers, else in that of
   * appearance.
   */
  get network() {
    const names = [...this.names.keys()];
    if (names.length > MOST_NODES || this.links.size > MOST_LINKS) {
      const size = `${grouped(names.length)} nodes and ${grouped(this.links.size)} edges`;
      throw new GraphFault(`it has ${size}, and this page draws ${MOST_NODES} and ${
        grouped(MOST_LINKS)} at most: the Python client takes it`);
    }
    const order = names.every((name) => NUMBER.test(name)) ? names.sort((a, b) => Number(a) - Number(b)) : names;
    const numbers = new Map(order.map((name, at) => [name, at + 1]));
    const ends = [...this.links.values()].map((pair) => pair.map((name) => numbers.get(name)).sort((a, b) => a - b));
    const renamed = order.some((name, at) => name !== String(at + 1));
    return { nodes: order.length, links: /** @type {Link[]} */ (ends), renamed };
  }
}

/**
 * Two names a line with or without a weight, or the name of a single node; `#` begins a comment.
 * @param {string} text
 */
function edgeList(text) {
  const found = new Collected();
  for (const line of linesOf(text, ([first]) => first.startsWith("#"))) {
    const [one, other, weight] = line.words;
    if (/[,;]/.test(line.text)) {
      throw wrong(line, "has a comma or semicolon: in an edge list a space parts two names");
    }
    if (line.words.length > 3 || (weight !== undefined && !WEIGHT.test(weight))) {
      throw wrong(line, "is no edge: two names, and then at most a number as its weight");
    }
    if (one === other) {
      throw wrong(line, "links a node with itself");
    }
    if (other === undefined) {
      found.node(one);
    } else {
      found.link(one, other);
    }
  }
  return found.network;
}

/**
 * A line `p edge N M`, then a line `e A B` for each edge; `c` begins a comment.
 * @param {string} text
 */
function dimacs(text) {
  const found = new Collected();
  /** @type {number | null} */
  let nodes = null;
  for (const line of linesOf(text, ([first]) => first === "c")) {
    const [kind, ...words] = line.words;
    if (kind === "p" && nodes === null && words.length === 3 && (words[0] === "edge" || words[0] === "col")) {
      nodes = numberIn(line, words[1], 0, MOST_NODES, "the number of nodes");
      numberIn(line, words[2], 0, 1e8, "the number of edges");
      Array.from({ length: nodes }, (_, at) => found.node(String(at + 1)));
    } else if (kind === "e" && nodes !== null && words.length === 2) {
      const [one, other] = words.map((word) => String(numberIn(line, word, 1, nodes, "two nodes")));
      if (one === other) {
        throw wrong(line, "links a node with itself");
      }
      found.link(one, other);
    } else {
      throw wrong(
        line,
        nodes === null ? "is no line p edge N M, with which a DIMACS graph begins" :
                         "is no line e A B of a DIMACS graph");
    }
  }
  if (nodes === null) {
    throw new GraphFault("a DIMACS graph has a line p edge N M");
  }
  return found.network;
}

/**
 * A line `N M`, then a line for each node with its neighbours; `%` begins a comment.
 * @param {string} text
 */
function metis(text) {
  const found = new Collected();
  const lines = text.replace(/(\r?\n)+$/, "")
                  .split(/\r?\n/)
                  .map((line, at) => ({ number: at + 1, words: line.split(/[ \t]+/).filter(Boolean), text: line }));
  const [head, ...rest] = lines.filter(({ words }) => !words[0]?.startsWith("%"));
  if (head.words.length < 2 || head.words.length > 3 || !/^0*$/.test(head.words[2] ?? "")) {
    throw wrong(head, "is no line N M, with which a METIS graph without weights begins");
  }
  const nodes = numberIn(head, head.words[0], 0, MOST_NODES, "the number of nodes");
  Array.from({ length: nodes }, (_, at) => found.node(String(at + 1)));
  // empty lines after the last node belong to no node
  const own = rest.slice(0, nodes);
  const further = rest.slice(nodes).find(({ words }) => words.length > 0);
  if (further) {
    throw wrong(further, `comes after the lines of all ${nodes} nodes`);
  }
  own.forEach(
    (line, at) => line.words.forEach((word) => {
      const other = String(numberIn(line, word, 1, nodes, "a neighbour"));
      if (other === String(at + 1)) {
        throw wrong(line, "links a node with itself");
      }
      found.link(String(at + 1), other);
    }),
  );
  if (found.links.size !== numberIn(head, head.words[1], 0, 1e8, "the number of edges")) {
    throw wrong(head, `tells of ${head.words[1]} edges, and there are ${found.links.size}`);
  }
  return found.network;
}

/**
 * @param {unknown} name
 * @param {string} what
 */
function jsonName(name, what) {
  if (typeof name !== "string" && !Number.isSafeInteger(name)) {
    throw new GraphFault(
      `${what} has no name that is a text or a whole number: ${JSON.stringify(name) ?? "none"}`.slice(0, 200));
  }
  // the text "1" and the number 1 are two names
  return typeof name === "string" && NUMBER.test(name) ? `"${name}"` : String(name);
}

/**
 * `{"nodes": [{"id": ..}], "links" or "edges": [{"source": .., "target": ..}]}`.
 * @param {string} text
 */
function nodeLink(text) {
  let told;
  try {
    told = JSON.parse(text);
  } catch (bad) {
    throw new GraphFault(`it is no JSON: ${bad.message}`);
  }
  const links = told?.links ?? told?.edges;
  if (!Array.isArray(told?.nodes) || !Array.isArray(links)) {
    throw new GraphFault("node-link JSON has a list of nodes, and a list of links or edges");
  }
  if ((told.directed ?? false) !== false || (told.multigraph ?? false) !== false) {
    throw new GraphFault(
      `it is told to be a ${told.directed ? "directed graph" : "multigraph"}, and a network's edges are neither`);
  }
  const found = new Collected();
  for (const [at, node] of told.nodes.entries()) {
    const name = jsonName(node?.id, `node ${at + 1}`);
    if (found.names.has(name)) {
      throw new GraphFault(`the node ${name} is there twice`);
    }
    found.node(name);
  }
  for (const [at, link] of links.entries()) {
    const [one, other] = [jsonName(link?.source, `link ${at + 1}`), jsonName(link?.target, `link ${at + 1}`)];
    if (!found.names.has(one) || !found.names.has(other) || one === other) {
      throw new GraphFault(`link ${at + 1}, of ${one} and ${other}, ${
        one === other ? "links a node with itself" : "names a node that is not there"}`);
    }
    found.link(one, other);
  }
  return found.network;
}

const READERS = {
  "edge list": edgeList,
  "DIMACS graph": dimacs,
  "METIS graph": metis,
  "node-link graph": nodeLink
};

/** @typedef {keyof typeof READERS} GraphFormat */

/**
 * The network of a graph file, and whether its names were replaced by numbers. Throws `GraphFault` if the
 * text does not have the format, or is too large to draw.
 * @param {string} text
 * @param {GraphFormat} format
 */
export function readGraph(text, format) {
  return READERS[format](text);
}
