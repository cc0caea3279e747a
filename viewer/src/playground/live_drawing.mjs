// The drawing of a network whose nodes are moved by hand and whose edges come and go.
import {Drawing, RADIUS} from "../drawing.mjs";
import {add} from "../svg.mjs";

export class LiveDrawing extends Drawing {
  /**
   * @param {SVGSVGElement} svg
   * @param {Layout} layout
   * @param {number} names
   */
  constructor(svg, layout, names) {
    super(svg, layout, names, []);
    this.hanging = Array.from({ length: names + 1 }, () => new Map());
    // detects changes of each node's edges
    this.seen = new Float64Array(names + 1).fill(NaN);
    this.band = add(this.layers.picks, "line", { class: "band" });
    // nodes with the ring of one that may still move
    this.ringed = new Uint8Array(names + 1);
    /** @type {Set<number>} */
    this.reached = new Set();
  }

  /** @param {number} v */
  makeNode(v) {
    const shape = super.makeNode(v);
    shape.group.prepend(
      add(shape.group, "circle", { class: "reach", r: RADIUS + 9 }),
      add(shape.group, "circle", { class: "rest", r: RADIUS + 5 }));
    return shape;
  }

  /**
   * Draws a halo round these nodes, and removes all others.
   * @param {number[]} nodes
   */
  surround(nodes) {
    const reached = new Set(nodes);
    [...this.reached, ...reached].forEach((v) => this.shapes[v].group.classList.toggle("reached", reached.has(v)));
    this.reached = reached;
  }

  /**
   * @param {import("./seen.mjs").Seen} machine
   * @param {Entry} entry
   * @param {number[]} lit
   */
  show(machine, entry, lit) {
    this.machine = machine;
    super.show(machine, entry, lit);
  }

  /**
   * @param {number} low
   * @param {number} high
   */
  edge(low, high) {
    const known = super.edge(low, high);
    this.hanging[low].set(high, known);
    this.hanging[high].set(low, known);
    return known;
  }

  /**
   * Puts marks into the gaps between the present edges.
   * @param {import("./seen.mjs").Seen} machine
   * @param {number} v
   * @param {boolean} isLit
   */
  showNode(machine, v, isLit) {
    const marked = machine.rule[v] !== null || machine.flag[v] === 1;
    const turned = marked && this.turns(machine, v);
    const shape = this.shapes[v];
    const { classes } = shape;
    super.showNode(machine, v, isLit);
    if (shape.classes !== classes || this.ringed[v] !== machine.restless[v]) {
      this.ringed[v] = machine.restless[v];
      shape.group.classList.toggle("restless", machine.restless[v] === 1);
      shape.group.classList.toggle("reached", this.reached.has(v));
    }
    if (turned) {
      const { mark, flag } = this.shapes[v];
      [mark, flag].forEach((sign, which) => sign?.setAttribute("transform", this.beside(v, which)));
    }
  }

  /**
   * Whether a node's edges have changed direction since its marks were placed.
   * @param {import("./seen.mjs").Seen} machine
   * @param {number} v
   */
  turns(machine, v) {
    const [x, y] = this.place(v);
    const ends = [...machine.neighbours[v]];
    const seen = ends.reduce((sum, w) => sum + w * (this.layout.x[w] - x) + this.layout.y[w] - y, ends.length);
    if (this.seen[v] === seen) {
      return false;
    }
    this.seen[v] = seen;
    this.angles[v] = ends.map((w) => Math.atan2(this.layout.y[w] - y, this.layout.x[w] - x));
    return true;
  }

  /** @param {number} v */
  replace(v) {
    const [x, y] = this.place(v).map((at) => at.toFixed(1));
    this.shapes[v].group.setAttribute("transform", `translate(${x} ${y})`);
    for (const [other, { line }] of this.hanging[v]) {
      const end = v < other ? 1 : 2;
      line.setAttribute(`x${end}`, x);
      line.setAttribute(`y${end}`, y);
    }
    this.layers.changes.replaceChildren();
    this.layers.edges.querySelector(".change")?.remove();
    if (this.machine) {
      [v, ...this.machine.neighbours[v]].forEach((w) => {
        this.turn(w);
        this.showNode(this.machine, w, this.shapes[w].classes.includes("lit"));
      });
    }
  }

  /** @param {number} v */
  turn(v) {
    this.pointers.get(v)?.line.remove();
    this.pointers.delete(v);
    this.showPointer(this.machine, v);
  }

  /**
   * A line from a node to a place, while a drag draws it; null removes it.
   * @param {Place | null} place
   * @param {number | null} node
   */
  stretch(node, place) {
    this.band.classList.toggle("drawn", place !== null);
    if (place !== null) {
      const [x1, y1] = this.place(node);
      Object.entries({ x1, y1, x2: place.x, y2: place.y }).forEach(([
                                                                     key, value
                                                                   ]) => this.band.setAttribute(key, String(value)));
    }
  }

  /**
   * Marks by a class; null marks none.
   * @param {Thing | null} thing
   */
  pick(thing, as = "") {
    super.pick(thing);
    [...this.layers.picks.children].forEach((mark) => as && mark.classList.add(as));
    this.layers.picks.append(this.band);
  }
}
