// Shows a part of a drawing, chosen by buttons, keys, the wheel and fingers.
import {View} from "./view.mjs";

// smaller names, in pixels, are left out: they are unreadable and the slowest to draw
const NAME_SIZE = 10;
const LEAST_NAME = 5;
// at most this many units a pixel, a name is readable
const READABLE = 1.6;

export class Zoom {
  /**
   * @param {SVGSVGElement} svg
   * @param {number} width
   * @param {number} height
   * @param {(pixels: number) => number} changed called with the pixels of a unit when another part comes
   *   into view; returns how much nodes are enlarged
   * @param {number} leastName
   */
  constructor(svg, width, height, changed, leastName = LEAST_NAME) {
    this.svg = svg;
    this.changed = changed;
    this.leastName = leastName;
    this.view = new View(width, height);
    this.apply();
    this.watch = new ResizeObserver(() => this.apply());
    this.watch.observe(svg);
    svg.addEventListener("wheel", (event) => this.turn(event), { passive: false });
  }

  close() {
    this.watch.disconnect();
  }

  fit() {
    this.view.fit();
    this.apply();
  }

  /** @param {number} factor */
  by(factor) {
    this.view.by(factor);
    this.apply();
  }

  /**
   * Moves to show a place of the drawing, enlarged if its names are unreadable.
   * @param {number} x
   * @param {number} y
   */
  reveal(x, y) {
    if (this.unit > READABLE) {
      this.view.by(this.unit);
    }
    if (!this.view.sees(x, y, NAME_SIZE * 2)) {
      this.view.moveTo(x, y);
    }
    this.apply();
  }

  /**
   * @param {Place} from
   * @param {Place} to
   */
  drag(from, to) {
    if (this.view.scale > 1) {
      this.view.drag((to.x - from.x) * this.unit, (to.y - from.y) * this.unit);
      this.apply();
    }
  }

  /**
   * @param {number} factor
   * @param {Place} from
   * @param {Place} to
   */
  pinch(factor, from, to) {
    const { x, y } = this.placeAt(from);
    this.view.by(factor, x, y);
    this.apply();
    this.drag(from, to);
  }

  apply() {
    const { view, svg } = this;
    svg.setAttribute("viewBox", view.box.map((n) => n.toFixed(2)).join(" "));
    svg.classList.toggle("zoomed", view.scale > 1);
    const pixels = Math.min(svg.clientWidth / view.width, svg.clientHeight / view.height);
    const growth = this.changed(pixels);
    svg.classList.toggle("nameless", NAME_SIZE * pixels * growth < this.leastName);
  }

  get unit() {
    return 1 / this.svg.getScreenCTM().a;
  }

  /** @param {Place} place */
  placeAt({ x, y }) {
    return new DOMPoint(x, y).matrixTransform(this.svg.getScreenCTM().inverse());
  }

  /**
   * @param {number} x
   * @param {number} y
   */
  pixelAt(x, y) {
    return new DOMPoint(x, y).matrixTransform(this.svg.getScreenCTM());
  }

  /** @param {WheelEvent} event */
  turn(event) {
    const page = document.documentElement;
    if (!event.ctrlKey && page.scrollHeight > page.clientHeight) {
      return;
    }
    event.preventDefault();
    const { x, y } = this.placeAt({ x: event.clientX, y: event.clientY });
    this.view.by(event.deltaY < 0 ? 1.25 : 0.8, x, y);
    this.apply();
  }
}
