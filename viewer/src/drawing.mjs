// The network as a drawing. Only elements that change are written anew.
import {labelOf, wholeOf} from "./own_names.mjs";
import {add} from "./svg.mjs";

export const MOST_DRAWN = 2000;
export const RADIUS = 12;
// a drawing with this many edges a node is dense: its plain edges are faint
const DENSE = 8;
const ARROW_GAP = 3;
const MARK_DISTANCE = 16;
// the size of an own name below a node, and its distance, which clears the halo
const OWN_SIZE = 9;
const OWN_GAP = 6;
// angles: how far two marks lie from the middle of a wide gap, and how wide such a gap is
const ASIDE = 0.5;
const WIDE = 1.8;
// names are readable at this many pixels a unit; below it nodes grow, as far as their neighbours leave room
const READABLE = 0.8;
const SHARE_OF_GAP = 0.32;
const MOST_GROWTH = 2;
/** @type {Record<string, string>} */
const MARKS = {
  update: "U",
  marry: "M",
  seduce: "S",
  abandon: "A"
};

/**
 * Two angles for marks that hide no pointer: both in the widest gap between edges if it is wide, else one in
 * each of the two widest.
 * @param {number[]} angles
 */
export function freeAngles(angles) {
  if (angles.length === 0) {
    return [-Math.PI / 4, -Math.PI / 4 + 2 * ASIDE];
  }
  const sorted = [...angles].sort((a, b) => a - b);
  const gaps = sorted.map((angle, at) => ({ from: angle, size: (sorted[at + 1] ?? sorted[0] + 2 * Math.PI) - angle }));
  // so that of nearly equal gaps the first one is taken
  gaps.sort((one, other) => Math.round(1e6 * (other.size - one.size)));
  /** @param {{ from: number, size: number }} gap */
  const middle = ({ from, size }) => from + size / 2;
  if (gaps[0].size > WIDE || gaps.length === 1) {
    return [middle(gaps[0]) - ASIDE, middle(gaps[0]) + ASIDE];
  }
  return [middle(gaps[0]), middle(gaps[1])];
}

/**
 * How far nodes may grow until they meet; a few very close ones do not count.
 * @param {Layout} layout
 * @param {number} nodes
 */
function roomToGrow({ x, y }, nodes) {
  const gaps = [];
  for (let v = 1; v <= nodes; v += 1) {
    let least = Infinity;
    for (let w = 1; w <= nodes; w += 1) {
      const far = v === w ? 0 : Math.hypot(x[v] - x[w], y[v] - y[w]);
      // names without a place yet share one
      least = far > 0 && far < least ? far : least;
    }
    gaps.push(least);
  }
  gaps.sort((a, b) => a - b);
  const gap = gaps[Math.floor(gaps.length / 20)] ?? Infinity;
  return Math.min(MOST_GROWTH, Math.max(1, (SHARE_OF_GAP * gap) / RADIUS));
}

/** @param {number} name */
function nameSize(name) {
  return [0, 13, 12, 10, 8][String(name).length];
}

/** @param {Entry | null} entry */
function changedEdge(entry) {
  if (entry && entry.disturbs && (entry.kind === "link" || entry.kind === "unlink")) {
    const [low, high] = entry.event.split(" ").slice(1).map(Number).sort((a, b) => a - b);
    return { low, high, change: entry.kind === "link" ? "came" : "went" };
  }
  return null;
}

/** @typedef {{ line: SVGElement, classes: string }} KnownEdge */
/**
 * @typedef {{ group: SVGElement, classes: string, mark: SVGElement | null, letter: SVGElement | null,
 * flag: SVGElement | null }} Shape
 */

export class Drawing {
  /**
   * @param {SVGSVGElement} svg
   * @param {Layout} layout
   * @param {number} nodes
   * @param {Link[]} edgesEver
   */
  constructor(svg, layout, nodes, edgesEver) {
    this.svg = svg;
    this.layout = layout;
    this.nodes = nodes;
    /** @type {number[][]} */
    this.angles = Array.from({ length: nodes + 1 }, () => []);
    for (const [v, w] of edgesEver) {
      const angle = Math.atan2(layout.y[w] - layout.y[v], layout.x[w] - layout.x[v]);
      this.angles[v].push(angle);
      this.angles[w].push(angle > 0 ? angle - Math.PI : angle + Math.PI);
    }
    this.layers = Object.fromEntries(["edges", "pairs", "picks", "pointers", "nodes", "changes"].map(
      (name) => [name, add(svg, "g", { class: name })]));
    svg.classList.toggle("dense", edgesEver.length > DENSE * nodes);
    /** @type {Map<number, KnownEdge>} */
    this.edges = new Map();
    /** @type {Map<number, { line: SVGElement, target: number }>} */
    this.pointers = new Map();
    /** @type {(Shape | null)[]} */
    this.shapes = [null];
    for (let v = 1; v <= nodes; v += 1) {
      this.shapes.push(this.makeNode(v));
    }
    /** @type {KnownEdge[]} */
    this.shownEdges = [];
    this.growth = 1;
    this.mostGrowth = roomToGrow(layout, nodes);
  }

  /**
   * Enlarges nodes and marks to keep names readable. Returns the factor.
   * @param {number} pixels
   */
  growFor(pixels) {
    const wanted = pixels > 0 ? Math.min(this.mostGrowth, Math.max(1, READABLE / pixels)) : 1;
    const growth = Math.round(20 * wanted) / 20;
    if (growth !== this.growth) {
      this.growth = growth;
      this.svg.style.setProperty("--growth", String(growth));
      const targets = [...this.pointers].map(([v, { target }]) => [v, target]);
      targets.forEach(([v, target]) => this.point(v, target));
    }
    return growth;
  }

  /** @param {number} v */
  place(v) {
    return [this.layout.x[v], this.layout.y[v]];
  }

  /**
   * @param {number} v
   * @param {number} which
   */
  beside(v, which) {
    const angle = freeAngles(this.angles[v])[which];
    return `translate(${(MARK_DISTANCE * Math.cos(angle)).toFixed(1)} ${(MARK_DISTANCE * Math.sin(angle)).toFixed(1)})`;
  }

  /**
   * @param {number} v
   * @returns {Shape}
   */
  makeNode(v) {
    const [x, y] = this.place(v);
    const group = add(
      this.layers.nodes, "g",
      { class: "node", "data-node": v, transform: `translate(${x.toFixed(1)} ${y.toFixed(1)})` });
    add(group, "circle", { class: "halo", r: RADIUS + 5 });
    add(group, "circle", { class: "body", r: RADIUS });
    add(group, "text", { class: "name", "font-size": nameSize(v), dy: "0.36em" }, String(v));
    const label = labelOf(v);
    if (label !== null) {
      add(group, "title", {}, wholeOf(v));
      add(group, "text", { class: "own", "font-size": OWN_SIZE, y: RADIUS + OWN_GAP + OWN_SIZE }, label);
    }
    return { group, classes: "node", mark: null, letter: null, flag: null };
  }

  /**
   * @param {number} low
   * @param {number} high
   * @returns {KnownEdge}
   */
  edge(low, high) {
    const key = low * 65536 + high;
    if (!this.edges.has(key)) {
      const [[x1, y1], [x2, y2]] = [this.place(low), this.place(high)];
      const attributes = {
        "data-ends": `${low}-${high}`,
        x1: x1.toFixed(1),
        y1: y1.toFixed(1),
        x2: x2.toFixed(1),
        y2: y2.toFixed(1)
      };
      this.edges.set(key, { line: add(this.layers.edges, "line", attributes), classes: "" });
    }
    return this.edges.get(key);
  }

  /**
   * `lit` are the nodes that the entry named.
   * @param {import("./machine.mjs").Machine} machine
   * @param {Entry | null} entry
   * @param {number[]} lit
   */
  show(machine, entry, lit) {
    this.showEdges(machine);
    this.showChange(changedEdge(entry));
    const lighted = new Set(lit);
    for (let v = 1; v <= this.nodes; v += 1) {
      this.showNode(machine, v, lighted.has(v));
      this.showPointer(machine, v);
    }
  }

  /** @param {import("./machine.mjs").Machine} machine */
  showEdges(machine) {
    const shown = new Map();
    for (const [low, high] of machine.edges()) {
      shown.set(this.edge(low, high), machine.partner(low) === high ? "edge mutual" : "edge");
    }
    for (const edge of this.shownEdges) {
      if (!shown.has(edge)) {
        shown.set(edge, "edge absent");
      }
    }
    for (const [edge, classes] of shown) {
      if (edge.classes !== classes) {
        edge.classes = classes;
        edge.line.setAttribute("class", classes);
        this.layers[classes === "edge mutual" ? "pairs" : "edges"].append(edge.line);
      }
    }
    this.shownEdges = [...shown.keys()].filter((edge) => edge.classes !== "edge absent");
  }

  /** @param {{ low: number, high: number, change: string } | null} changed */
  showChange(changed) {
    this.layers.changes.replaceChildren();
    this.layers.edges.querySelector(".change")?.remove();
    if (!changed) {
      return;
    }
    const [[x1, y1], [x2, y2]] = [this.place(changed.low), this.place(changed.high)];
    add(this.layers.edges, "line", { class: `change ${changed.change}`, x1, y1, x2, y2 });
    const at = { x: (x1 + x2) / 2, y: (y1 + y2) / 2 };
    add(this.layers.changes, "circle", { class: changed.change, cx: at.x, cy: at.y, r: 8 });
    add(
      this.layers.changes, "text", { class: changed.change, ...at, dy: "0.36em" },
      changed.change === "came" ? "+" : "×");
  }

  /**
   * @param {import("./machine.mjs").Machine} machine
   * @param {number} v
   * @param {boolean} isLit
   */
  showNode(machine, v, isLit) {
    const shape = this.shapes[v];
    const rule = machine.rule[v];
    const flagged = machine.flag[v] === 1;
    const classes = [
      "node", !machine.here[v] && "absent", machine.isMarried(v) && "married", rule && "enabled", isLit && "lit",
      flagged && "flagged"
    ].filter(Boolean).join(" ");
    if (shape.classes !== classes) {
      shape.classes = classes;
      shape.group.setAttribute("class", classes);
    }
    if (flagged && !shape.flag) {
      shape.flag =
        add(shape.group, "path", { class: "flag", d: "M-4 8v-15l9 4.5l-9 4.5", transform: this.beside(v, 1) });
    }
    if (rule && !shape.mark) {
      shape.mark = add(shape.group, "g", { class: "mark", transform: this.beside(v, 0) });
      add(shape.mark, "circle", { r: 7.5 });
      shape.letter = add(shape.mark, "text", { class: "rule", dy: "0.36em" });
    }
    if (rule && shape.letter.textContent !== MARKS[rule]) {
      shape.letter.textContent = MARKS[rule];
    }
  }

  /**
   * An unanswered pointer is an arrow; an answered one is half of a bold edge.
   * @param {import("./machine.mjs").Machine} machine
   * @param {number} v
   */
  showPointer(machine, v) {
    const target = machine.isMarried(v) ? 0 : machine.pointer[v];
    const known = this.pointers.get(v);
    if ((known?.target ?? 0) === target) {
      return;
    }
    if (target === 0) {
      known.line.remove();
      this.pointers.delete(v);
      return;
    }
    this.point(v, target);
  }

  /**
   * @param {number} v
   * @param {number} target
   */
  point(v, target) {
    const line = this.pointers.get(v)?.line
      ?? add(this.layers.pointers, "line", { class: "pointer", "marker-end": "url(#arrow)" });
    const [[x1, y1], [x2, y2]] = [this.place(v), this.place(target)];
    // two nodes at one place have no direction
    const length = Math.hypot(x2 - x1, y2 - y1) || 1;
    const [dx, dy] = [(x2 - x1) / length, (y2 - y1) / length];
    const [from, to] = [RADIUS * this.growth, RADIUS * this.growth + ARROW_GAP];
    const end = { x1: x1 + dx * from, y1: y1 + dy * from, x2: x2 - dx * to, y2: y2 - dy * to };
    Object.entries(end).forEach(([key, value]) => line.setAttribute(key, value.toFixed(1)));
    line.setAttribute("data-pointer", `${v}>${target}`);
    this.pointers.set(v, { line, target });
  }

  /**
   * How many present nodes of this radius touch the box.
   * @param {Place} from
   * @param {Place} to
   * @param {number} radius
   */
  countIn(from, to, radius) {
    const { x, y } = this.layout;
    /** @param {number} v */
    const isIn = (v) =>
      x[v] > from.x - radius && x[v] < to.x + radius && y[v] > from.y - radius && y[v] < to.y + radius;
    return this.shapes.filter((shape, v) => shape && !shape.classes.includes("absent") && isIn(v)).length;
  }

  /** @param {Thing | null} thing */
  pick(thing) {
    this.layers.picks.replaceChildren();
    if (thing === null) {
      return;
    }
    if (thing.node) {
      const [cx, cy] = this.place(thing.node);
      add(this.layers.picks, "circle", { class: "pick", cx, cy, r: (RADIUS + 8) * this.growth });
      return;
    }
    const [[x1, y1], [x2, y2]] = [this.place(thing.low), this.place(thing.high)];
    add(this.layers.picks, "line", { class: "pick", x1, y1, x2, y2 });
  }
}
