// Plots over entries: lines in front of a band for every second epoch.
import {bandPath, columnsOf, meanPath, stepOf, stepPath, strideOf} from "./curves.mjs";
import {grouped} from "./numbers.mjs";
import {add, graphic} from "./svg.mjs";

const MARGIN = {
  left: 52,
  right: 14,
  top: 8,
  bottom: 18
};
// epochs narrower than this many pixels have no bands
const LEAST_BAND = 2;
// how high the mark of a round's end is, in pixels
const MARK = 9;

/**
 * A line's name, which is also its class, and its value after each entry.
 * @typedef {{ name: string, valueAt: (number: number) => number }} PlotLine
 */

export class Plot {
  /**
   * `lines` are name, class and value of each line, lowest first; the greatest value is that of `top`.
   * @param {SVGSVGElement} svg
   * @param {import("./replay.mjs").Replay} replay
   * @param {(number: number) => void} goTo
   * @param {PlotLine[]} lines
   * @param {boolean} marks whether the ends of rounds are marked
   */
  constructor(svg, replay, lines, goTo, marks = false) {
    this.svg = svg;
    this.replay = replay;
    this.lines = lines;
    this.goTo = goTo;
    this.marks = marks;
    this.width = this.height = 0;
    this.first = replay.transcript.first;
    this.last = replay.transcript.last;
    this.top = 1;
    for (const line of lines) {
      for (let k = this.first; k <= this.last; k += 1) {
        this.top = Math.max(this.top, line.valueAt(k));
      }
    }
    svg.addEventListener("pointerdown", (event) => {
      svg.setPointerCapture(event.pointerId);
      this.seek(event);
    });
    svg.addEventListener("pointermove", (event) => event.buttons & 1 && this.seek(event));
  }

  /** @param {PointerEvent} event */
  seek(event) {
    const x = event.clientX - this.svg.getBoundingClientRect().left;
    const share = (x - MARGIN.left) / (this.width - MARGIN.left - MARGIN.right);
    this.goTo(this.first + Math.round(Math.min(1, Math.max(0, share)) * this.length));
  }

  get length() {
    return this.last - this.first;
  }

  /** @param {number} number */
  xOf(number) {
    return MARGIN.left + ((number - this.first) / (this.length || 1)) * (this.width - MARGIN.left - MARGIN.right);
  }

  /** @param {number} value */
  yOf(value) {
    return this.height - MARGIN.bottom - (value / this.top) * (this.height - MARGIN.top - MARGIN.bottom);
  }

  draw() {
    const box = this.svg.getBoundingClientRect();
    [this.width, this.height] = [Math.max(120, box.width), Math.max(60, box.height)];
    this.svg.setAttribute("viewBox", `0 0 ${this.width} ${this.height}`);
    this.svg.replaceChildren();
    this.drawBands();
    this.drawAxes();
    this.stride = strideOf(this.length, this.width - MARGIN.left - MARGIN.right);
    this.lines.forEach((line) => this.drawLine(line));
    this.drawMarks();
    this.sayStride();
    this.cursor = add(this.svg, "line", { class: "cursor", y1: MARGIN.top - 4, y2: this.height - MARGIN.bottom });
    this.point(this.at ?? this.first);
  }

  sayStride() {
    const caption = this.svg.parentElement.querySelector(".shared");
    caption.textContent = this.stride === 1 ? "" : `mean and range of ${grouped(this.stride)} entries`;
  }

  /** @param {PlotLine} line */
  drawLine(line) {
    /** @param {number} place */
    const valueAt = (place) => line.valueAt(this.first + place);
    /** @param {number} at */
    const xOf = (at) => this.xOf(this.first + at);
    /** @param {number} value */
    const yOf = (value) => this.yOf(value);
    if (this.stride === 1) {
      add(this.svg, "path", { class: `line ${line.name}`, d: stepPath(valueAt, this.length, xOf, yOf) });
      return;
    }
    const columns = columnsOf(valueAt, this.length, this.stride);
    add(this.svg, "path", { class: `range ${line.name}`, d: bandPath(columns, xOf, yOf) });
    add(this.svg, "path", { class: `line ${line.name}`, d: meanPath(columns, xOf, yOf) });
  }

  drawBands() {
    const starts = [this.first, ...this.replay.disturbances, this.last];
    const [top, height] = [MARGIN.top, this.height - MARGIN.top - MARGIN.bottom];
    for (let at = 1; at < starts.length - 1; at += 2) {
      const x = this.xOf(starts[at]);
      const width = this.xOf(starts[at + 1]) - x;
      if (width >= LEAST_BAND) {
        add(this.svg, "rect", { class: "epoch", x: x.toFixed(1), y: top, width: width.toFixed(1), height });
      }
    }
    this.svg.parentElement.classList.toggle("unbanded", this.svg.querySelector(".epoch") === null);
  }

  /** A mark at each end of a round, if each entry has a place of its own. */
  drawMarks() {
    const bottom = this.height - MARGIN.bottom;
    let path = "";
    for (let number = this.first + 1; this.marks && this.stride === 1 && number <= this.last; number += 1) {
      path += this.replay.endsRound(number) ? `M${this.xOf(number).toFixed(1)} ${bottom}v${- MARK}` : "";
    }
    if (path !== "") {
      add(this.svg, "path", { class: "line round", d: path });
    }
    this.svg.parentElement.classList.toggle("unmarked", path === "");
  }

  drawAxes() {
    const step = stepOf(this.top, (this.height - MARGIN.top - MARGIN.bottom) / 28);
    for (let value = 0; value <= this.top; value += step) {
      const y = this.yOf(value);
      add(this.svg, "line", { class: "grid", x1: MARGIN.left, x2: this.width - MARGIN.right, y1: y, y2: y });
      add(
        this.svg, "text", { class: "tick", x: MARGIN.left - 6, y, dy: "0.35em", "text-anchor": "end" }, grouped(value));
    }
    const along = stepOf(Math.max(1, this.length), (this.width - MARGIN.left - MARGIN.right) / 80);
    for (let number = Math.ceil(this.first / along) * along; number <= this.last; number += along) {
      const x = this.xOf(number);
      const anchor = x > this.width - 30 ? "end" : "middle";
      add(
        this.svg, "text",
        { class: "tick", x: anchor === "end" ? this.width - 4 : x, y: this.height - 4, "text-anchor": anchor },
        grouped(number));
    }
  }

  /** @param {number} number */
  point(number) {
    this.at = number;
    const x = this.xOf(number).toFixed(1);
    this.cursor.setAttribute("x1", x);
    this.cursor.setAttribute("x2", x);
  }
}

/**
 * @param {import("./replay.mjs").Replay} replay
 * @param {(number: number) => void} goTo
 */
export function plotsOf(replay, goTo) {
  /** @param {string} name */
  const series = (name) => (/** @type {number} */ number) => replay.valueAt(name, number);
  const budget = [
    { name: "spent", valueAt: series("spent") },
    { name: "left", valueAt: (/** @type {number} */ number) => replay.movesLeft(number) },
    { name: "bound", valueAt: (/** @type {number} */ number) => replay.bound(number) },
  ];
  const counts = ["pairs", "enabled"].map((name) => ({ name, valueAt: series(name) }));
  return [new Plot(graphic("budget"), replay, budget, goTo, true), new Plot(graphic("counts"), replay, counts, goTo)];
}
