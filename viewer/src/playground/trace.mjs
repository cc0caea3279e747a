// Moves spent and possible, under the bound, over the last changes; and the ends of rounds.
import {counted, grouped} from "../numbers.mjs";
import {add} from "../svg.mjs";

const LENGTH = 160;
const HEIGHT = 100;
// how high a mark is
const MARK = 18;

export class Trace {
  /** @param {Element} root holds the picture, and the words at its axes */
  constructor(root) {
    /** @type {Record<string, number[]>} */
    this.values = { spent: [], left: [], bound: [] };
    /**
     * Whether a round ended with each change.
     * @type {boolean[]}
     */
    this.ends = [];
    this.rounds = 0;
    const svg = root.querySelector("svg");
    this.top = root.querySelector(".top");
    this.along = root.querySelector(".along");
    svg.setAttribute("viewBox", `0 -4 ${LENGTH} ${HEIGHT + 8}`);
    this.paths =
      Object.fromEntries(["bound", "left", "spent"].map((name) => [name, add(svg, "path", { class: `line ${name}` })]));
    this.marks = add(svg, "path", { class: "line round" });
  }

  /**
   * @param {number} spent
   * @param {number} left
   * @param {number} bound
   * @param {number} rounds those complete since the last edit or fault
   */
  note(spent, left, bound, rounds) {
    for (const [name, value] of Object.entries({ spent, left, bound })) {
      this.keep(this.values[name], value);
    }
    this.keep(this.ends, rounds > this.rounds);
    this.rounds = rounds;
    this.draw();
  }

  /**
   * Adds a change's value, and drops that of the oldest one if there are too many.
   * @template Value
   * @param {Value[]} values
   * @param {Value} value
   */
  keep(values, value) {
    values.push(value);
    if (values.length > LENGTH) {
      values.shift();
    }
  }

  draw() {
    const top = this.values.bound.reduce((a, b) => Math.max(a, b), 1);
    for (const [name, values] of Object.entries(this.values)) {
      const steps = values.map((value, at) => `${at} ${(HEIGHT * (1 - value / top)).toFixed(1)}H${at + 1}`);
      this.paths[name].setAttribute("d", `M${steps.join("L")}`);
    }
    // a change is at the left end of its step
    const places = this.ends.flatMap((ended, at) => (ended ? [at] : []));
    this.marks.setAttribute("d", places.map((at) => `M${at} ${HEIGHT}V${HEIGHT - MARK}`).join(""));
    this.top.textContent = `${grouped(top)} moves`;
    this.along.textContent = `the last ${counted(this.values.bound.length, "change")} shown`;
  }
}
