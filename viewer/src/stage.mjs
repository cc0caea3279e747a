// The stage: the drawing of a network with its zoom and its gestures.
import {Drawing, RADIUS} from "./drawing.mjs";
import {Gestures} from "./gestures.mjs";
import {thingAt} from "./hit.mjs";
import {fill, layOut} from "./layout.mjs";
import {Zoom} from "./zoom.mjs";

// a place within this many pixels of an edge is on it
const REACH = 7;

export class Stage {
  /**
   * @param {SVGSVGElement} svg
   * @param {number} nodes
   * @param {Link[]} edgesEver
   */
  constructor(svg, nodes, edgesEver) {
    this.svg = svg;
    this.layout = fill(layOut(nodes, edgesEver));
    this.drawing = new Drawing(svg, this.layout, nodes, edgesEver);
    /**
     * Called when another part comes into view.
     * @type {() => void}
     */
    this.moved = () => {};
    this.zoom = new Zoom(svg, this.layout.width, this.layout.height, (pixels) => {
      this.moved();
      return this.drawing.growFor(pixels);
    });
  }

  /**
   * @param {import("./inspector.mjs").Inspector} inspector
   * @param {() => import("./machine.mjs").Machine} machine
   */
  listen(inspector, machine) {
    /** @param {Place} place */
    const under = (place) => {
      const { x, y } = this.zoom.placeAt(place);
      return thingAt(this.layout, machine(), x, y, RADIUS * this.drawing.growth, REACH * this.zoom.unit);
    };
    this.moved = () => inspector.place();
    new Gestures(this.svg, {
      hover: (place) => inspector.hover(under(place)),
      leave: () => inspector.hover(null),
      tap: (place) => inspector.toggle(under(place)),
      drag: (from, to) => this.zoom.drag(from, to),
      pinch: (factor, from, to) => this.zoom.pinch(factor, from, to),
    });
  }

  /**
   * @param {import("./machine.mjs").Machine} machine
   * @param {Entry} entry
   * @param {number[]} lit
   */
  show(machine, entry, lit) {
    this.drawing.show(machine, entry, lit);
  }

  /** @param {Thing | null} thing */
  pick(thing) {
    this.drawing.pick(thing);
  }

  /**
   * The place of a node, or of the middle of an edge, in the drawing.
   * @param {Thing | null} thing
   */
  placeOf(thing) {
    const { x, y } = this.layout;
    const [low, high] = thing.node ? [thing.node, thing.node] : [thing.low, thing.high];
    return [(x[low] + x[high]) / 2, (y[low] + y[high]) / 2];
  }

  /** @param {Thing | null} thing */
  pixelOf(thing) {
    const [x, y] = this.placeOf(thing);
    return this.zoom.pixelAt(x, y);
  }

  /** @param {Box} box */
  shareIn({ left, top, width, height }) {
    const [from, to] =
      [this.zoom.placeAt({ x: left, y: top }), this.zoom.placeAt({ x: left + width, y: top + height })];
    return this.drawing.countIn(from, to, RADIUS) / this.drawing.nodes;
  }

  /** @param {Thing | null} thing */
  reveal(thing) {
    const [x, y] = this.placeOf(thing);
    this.zoom.reveal(x, y);
  }
}
