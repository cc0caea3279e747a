// One network of the page: its picture with its gestures, and its moves under their bound.
import {RADIUS} from "../drawing.mjs";
import {Gestures} from "../gestures.mjs";
import {thingAt} from "../hit.mjs";
import {counted, grouped} from "../numbers.mjs";
import {byId} from "../svg.mjs";
import {Zoom} from "../zoom.mjs";
import {LiveDrawing} from "./live_drawing.mjs";
import {frame} from "./places.mjs";
import {Trace} from "./trace.mjs";

// a place within this many pixels of an edge is on it, for a mouse and for a finger
const REACH = 8;
const FINGER_REACH = 18;
// smaller names, in pixels, are left out
const LEAST_NAME = 7;
const RULE_SET_NAMES = {
  hh: "rules of Hsu and Huang",
  manne: "rules of Manne and others"
};

/**
 * The shares of the bar for moves spent and for moves that can come; the whole bar is an epoch's bound. Both
 * together fit: no epoch has more moves than its bound.
 * @param {number} spent
 * @param {number} movesLeft
 * @param {number} bound
 */
export function sharesOf(spent, movesLeft, bound) {
  const whole = bound || 1;
  return { spent: spent / whole, left: Math.min(movesLeft, bound - spent) / whole };
}

/**
 * Calls for gestures in a picture. `draws` says whether a drag from a node draws a line instead of moving the
 * node; `stretch` is called while it draws.
 * @typedef {object} Hands
 * @property {(thing: Thing | null, place: Place) => void} tap
 * @property {(node: number, thing: Thing | null) => void} pair
 * @property {(lab: import("./lab.mjs").Lab, thing: Thing | null) => void} point
 * @property {(node: number, thing: Thing | null) => void} stretch
 * @property {() => boolean} draws
 * @property {(node: number, x: number, y: number) => void} moved
 */

export class Pane {
  /**
   * @param {import("./lab.mjs").Lab} lab
   * @param {Layout} layout
   * @param {Hands} hands
   */
  constructor(lab, layout, hands) {
    const template = /** @type {HTMLTemplateElement} */ (byId("pane"));
    const root =
      /** @type {HTMLElement} */ (/** @type {Element} */ (template.content.cloneNode(true)).firstElementChild);
    this.lab = lab;
    this.layout = layout;
    this.hands = hands;
    this.root = root;
    /** @type {number | null} */
    this.grip = null;
    byId("panes").append(root);
    /** @param {string} name */
    const part = (name) => /** @type {HTMLElement} */ (root.querySelector(`.${name}`));
    this.parts = {
      state: part("state"),
      numbers: part("numbers"),
      rounds: part("rounds"),
      spent: part("spent"),
      left: part("left")
    };
    part("rules").textContent = RULE_SET_NAMES[lab.rules];
    root.classList.add(lab.rules);
    this.svg = /** @type {SVGSVGElement} */ (/** @type {unknown} */ (part("graph")));
    this.svg.id = `graph-${lab.rules}`;
    if (!layout.framed && this.svg.clientHeight > 0) {
      frame(layout, this.svg.clientWidth / this.svg.clientHeight);
    }
    this.drawing = new LiveDrawing(this.svg, layout, lab.names);
    this.zoom = new Zoom(this.svg, layout.width, layout.height, (pixels) => this.drawing.growFor(pixels), LEAST_NAME);
    this.trace = new Trace(part("history"));
    new Gestures(this.svg, {
      hover: (place) => hands.point(lab, this.under(place)),
      leave: () => hands.point(lab, null),
      press: (place) => (this.grip = place && (this.under(place)?.node ?? null)),
      tap: (place) => hands.tap(this.under(place), this.zoom.placeAt(place)),
      drag: (from, to) => this.drag(from, to),
      drop: (place) => this.drop(place),
      pinch: (factor, from, to) => this.zoom.pinch(factor, from, to),
    });
  }

  /** @param {Place} place */
  under(place) {
    const { x, y } = this.zoom.placeAt(place);
    return thingAt(
      this.layout, this.lab.seen, x, y, RADIUS * this.drawing.growth,
      (place.finger ? FINGER_REACH : REACH) * this.zoom.unit);
  }

  /**
   * @param {Place} from
   * @param {Place} to
   */
  drag(from, to) {
    if (this.grip === null) {
      this.zoom.drag(from, to);
    } else if (this.hands.draws()) {
      this.drawing.stretch(this.grip, this.zoom.placeAt(to));
      this.hands.stretch(this.grip, this.under(to));
    } else {
      const { x, y } = this.zoom.placeAt(to);
      this.hands.moved(this.grip, x, y);
    }
  }

  /** @param {Place} place */
  drop(place) {
    const { grip } = this;
    this.grip = null;
    this.drawing.stretch(grip, null);
    if (grip !== null && this.hands.draws()) {
      this.hands.pair(grip, this.under(place));
    }
  }

  /**
   * @param {Entry | null} entry
   * @param {number[]} lit
   */
  show(entry, lit) {
    const { seen } = this.lab;
    this.drawing.show(seen, entry, lit);
    this.meter();
    const quiet = seen.enabledCount === 0;
    this.parts.state.textContent =
      quiet ? `✓ stable, ${counted(seen.pairCount, "married pair")}` : `${grouped(seen.enabledCount)} enabled`;
    this.parts.state.classList.toggle("stable", quiet);
  }

  meter() {
    const { movesLeft, epochBound, spent, enabledCount, rounds, roundsLeft, mostRounds } = this.lab.seen;
    const shares = sharesOf(spent, movesLeft, epochBound);
    this.parts.spent.style.width = `${100 * shares.spent}%`;
    this.parts.left.style.width = `${100 * shares.left}%`;
    const left = enabledCount === 0 ? "silent" : `at most ${grouped(movesLeft)} to come`;
    this.parts.numbers.textContent = `spent ${grouped(spent)}, ${left}; bound ${grouped(epochBound)}`;
    const later = enabledCount === 0 ? "silent" : `at most ${grouped(roundsLeft)} to come`;
    this.parts.rounds.textContent = `${counted(rounds, "round")}, ${later}; bound ${grouped(mostRounds)}`;
  }

  note() {
    const { spent, movesLeft, epochBound, rounds } = this.lab.seen;
    this.trace.note(spent, movesLeft, epochBound, rounds);
  }

  /** @param {string[]} lines */
  surround(lines) {
    this.drawing.surround(this.lab.reachOf(lines));
  }

  close() {
    this.zoom.close();
    this.root.remove();
  }
}
