// The tools: what a click, a tap or Enter does to a node, an edge or an empty place. Each act is a line of a
// script.
import {explainNode} from "../explain.mjs";
import {linesBetween} from "./halo.mjs";

/** @typedef {import("./lab.mjs").Lab} Lab */
/** @typedef {import("./seen.mjs").Seen} Seen */
/** @typedef {"cut" | "link" | "point" | "flag" | "node" | "move"} ToolName */

/**
 * @typedef {object} Acts
 * @property {(line: string) => void} disturb
 * @property {(lab: Lab, line: string) => void} move
 * @property {(thing: Thing | null) => void} choose
 * @property {(text: string, wrong?: boolean) => void} say
 * @property {(node: number, place: Place | null) => void} settle
 * @property {(lines: () => string[]) => void} intend
 */

/**
 * The text on each tool, and whether a drag with it draws a line.
 * @type {Record<ToolName, { hint: string, draws: boolean }>}
 */
export const TOOLS = {
  cut: {hint: "Click an edge to cut it.", draws: false},
  link: {hint: "Drag from one node to another to link them.", draws: true},
  point:
    {hint: "Drag from a node to its neighbour: it points there. Click a node twice: it points nowhere.", draws: true},
  flag: {hint: "Click a node to flip its flag.", draws: false},
  node: {hint: "Click an empty place: a node joins. Click a node: it leaves.", draws: false},
  move: {hint: "Click a node with a yellow ring: it moves.", draws: false},
};

/** @param {Seen} seen */
function firstAbsent(seen) {
  for (let v = 1; v <= seen.nodes; v += 1) {
    if (!seen.here[v]) {
      return v;
    }
  }
  return 0;
}

export class Tools {
  /** @param {Acts} acts */
  constructor(acts) {
    this.acts = acts;
    /** @type {ToolName} */
    this.name = "cut";
    /**
     * The first of two nodes, or null.
     * @type {number | null}
     */
    this.from = null;
  }

  /** @param {ToolName} name */
  take(name) {
    this.name = name;
    this.from = null;
  }

  get draws() {
    return TOOLS[this.name].draws;
  }

  /**
   * The thing that a click would hit, or null if a click does nothing to it.
   * @param {Thing | null} thing
   */
  aims(thing) {
    return thing !== null && (this.name === "cut" || thing.node) ? thing : null;
  }

  /**
   * @param {Lab} lab
   * @param {Thing | null} thing
   * @param {Place | null} place
   */
  tap(lab, thing, place) {
    this[this.name](lab, thing, place);
  }

  /**
   * @param {number} node
   * @param {Thing | null} thing
   */
  pair(node, thing) {
    this.from = null;
    linesBetween(this.name, node, thing).forEach((line) => this.acts.disturb(line));
  }

  /**
   * @param {Lab} lab
   * @param {Thing | null} thing
   */
  cut(lab, thing) {
    if (thing?.low) {
      this.acts.choose(null);
      this.acts.disturb(`unlink ${thing.low} ${thing.high}`);
    } else {
      this.acts.choose(thing);
    }
  }

  /**
   * Keeps the first node until a second one is clicked.
   * @param {Thing | null} thing
   * @param {(node: number) => string} said
   */
  ends(thing, said) {
    if (!thing?.node) {
      this.from = null;
      this.acts.choose(null);
    } else if (this.from === null) {
      this.from = thing.node;
      this.acts.choose(thing);
      this.acts.say(said(thing.node));
    } else {
      const { from } = this;
      this.acts.choose(null);
      this.pair(from, thing);
    }
  }

  /**
   * @param {Lab} lab
   * @param {Thing | null} thing
   */
  link(lab, thing) {
    this.ends(thing, (node) => `Node ${node}: now the node to link it with.`);
  }

  /**
   * @param {Lab} lab
   * @param {Thing | null} thing
   */
  point(lab, thing) {
    this.ends(thing, (node) => `Node ${node}: now the neighbour to point at; itself for nowhere.`);
  }

  /**
   * @param {Lab} lab
   * @param {Thing | null} thing
   */
  flag(lab, thing) {
    if (thing?.node) {
      this.acts.disturb(`flag ${thing.node} ${1 - lab.seen.flag[thing.node]}`);
    }
  }

  /**
   * @param {Lab} lab
   * @param {Thing | null} thing
   * @param {Place | null} place
   */
  node(lab, thing, place) {
    if (thing?.node) {
      this.acts.choose(null);
      this.acts.disturb(`leave ${thing.node}`);
    } else if (!thing) {
      this.join(lab, place);
    }
  }

  /**
   * Lets the first absent name join, at a place, or wherever there is room.
   * @param {Lab} lab
   * @param {Place | null} place
   */
  join(lab, place) {
    const node = firstAbsent(lab.seen);
    if (node === 0) {
      this.acts.say(`All ${lab.names} names are taken.`, true);
      return;
    }
    this.acts.settle(node, place);
    this.acts.disturb(`join ${node}`);
  }

  /**
   * @param {Lab} lab
   * @param {Thing | null} thing
   */
  move(lab, thing) {
    if (!thing?.node) {
      return;
    }
    if (lab.seen.rule[thing.node]) {
      this.acts.move(lab, `step ${thing.node}`);
      return;
    }
    const [, why] = explainNode(lab.seen, thing.node).rows.find(([term]) => term === "not enabled");
    this.acts.say(`Node ${thing.node} may not move, ${why}.`, true);
  }
}
