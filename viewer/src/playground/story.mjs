// Describes the last events: the change, how many moves and rounds came until silence, and how many were
// possible.
import {counted, grouped} from "../numbers.mjs";

// how many milliseconds another message stays
const HELD = 2500;
/** @type {Record<string, (words: string[]) => string>} */
const BROKEN = {
  unlink: ([v, w]) => `The edge ${v} – ${w} is cut.`,
  link: ([v, w]) => `The edge ${v} – ${w} came.`,
  point: ([v, w]) => (w === "-" ? `Node ${v} points nowhere now.` : `Node ${v} points at ${w} now.`),
  flag: ([v, bit]) => `The flag of node ${v} is ${bit} now.`,
  join: ([v]) => `Node ${v} came.`,
  leave: ([v]) => `Node ${v} is gone, with its edges.`,
  scramble: ([, count]) => `${counted(Number(count), "register")} scrambled.`,
};

/**
 * A script line's effect, as a sentence.
 * @param {string} line
 */
export function toldOf(line) {
  const [kind, ...words] = line.split(" ");
  return BROKEN[kind]?.(words) ?? "";
}

/**
 * How many moves and rounds came, or can come.
 * @typedef {{ moves: number, rounds: number }} Counts
 */

/**
 * A panel's rules, the moves and rounds since its last edit or fault as the engine counts them, and whether no
 * rule is enabled.
 * @typedef {Counts & { rules: RuleName, isSilent: boolean }} Panel
 */

/** @type {Record<RuleName, string>} */
const WHOSE = {
  hh: "Hsu and Huang",
  manne: "Manne and others"
};

/** @param {Counts} counts */
function cameIn({ moves, rounds }) {
  return `${counted(moves, "move")} and ${counted(rounds, "round")}`;
}

export class Story {
  /** @param {Element} place */
  constructor(place) {
    this.place = place;
    this.runs = true;
    this.open();
  }

  open() {
    this.broken = "";
    /**
     * The panels that the last change concerns, and the most that could come after it in each.
     * @type {Map<RuleName, Counts>}
     */
    this.most = new Map();
    this.opening = true;
    this.until = 0;
  }

  /**
   * Reports a change, and for each panel how many moves and rounds can come at most after it.
   * @param {string} line
   * @param {Map<RuleName, Counts>} most
   */
  breaks(line, most) {
    this.broken = toldOf(line);
    this.most = most;
    this.opening = false;
    this.until = 0;
  }

  /**
   * @param {Panel[]} panels
   * @param {number} pairs
   */
  goesOn(panels, pairs) {
    if (performance.now() < this.until) {
      return;
    }
    const isSilent = panels.every((panel) => panel.isSilent);
    if (this.opening) {
      this.write(isSilent ? this.opened(pairs) : this.begun(), false);
    } else {
      const concerned = panels.filter(({ rules }) => this.most.has(rules));
      this.write(`${this.broken} ${isSilent ? this.mended(concerned) : this.mending(concerned)}`, false);
    }
  }

  begun() {
    return this.runs ? "The nodes are looking for partners …" : "The nodes wait: run lets them look for partners.";
  }

  /** @param {number} pairs */
  opened(pairs) {
    return `${counted(pairs, "married pair")}, and nothing is left to do. Now break something.`;
  }

  /** @param {Panel[]} panels */
  mending(panels) {
    const [panel] = panels;
    if (panels.length === 1) {
      return `Mending: ${cameIn(panel)} so far, of at most ${this.mostOf(panel)}.`;
    }
    return `Mending: ${this.each(panels, (told, most) => `${told} so far, of at most ${most}`)}.`;
  }

  /** @param {Panel[]} panels */
  mended(panels) {
    if (panels.every(({ moves }) => moves === 0)) {
      return "Nobody had to move.";
    }
    const [panel] = panels;
    if (panels.length === 1) {
      return `Mended in ${cameIn(panel)}; at most ${this.mostOf(panel)} could have come.`;
    }
    return `Mended: ${this.each(panels, (told, most) => `in ${told}, of at most ${most}`)}.`;
  }

  /**
   * @param {Panel[]} panels
   * @param {(came: string, most: string) => string} told
   */
  each(panels, told) {
    const parts = panels.map((panel) => `${WHOSE[panel.rules]} ${told(cameIn(panel), this.mostOf(panel))}`);
    return parts.join("; ");
  }

  /** @param {Panel} panel */
  mostOf({ rules }) {
    const { moves, rounds } = this.most.get(rules);
    return `${grouped(moves)} and ${grouped(rounds)}`;
  }

  /**
   * @param {string} text
   * @param {boolean} wrong
   */
  say(text, wrong = false) {
    this.until = performance.now() + HELD;
    this.write(text, wrong);
  }

  /**
   * @param {string} text
   * @param {boolean} wrong
   */
  write(text, wrong) {
    this.place.classList.toggle("wrong", wrong);
    if (this.place.textContent !== text) {
      this.place.textContent = text;
    }
  }
}
