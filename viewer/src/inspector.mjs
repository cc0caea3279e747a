// Marks the node or edge under the pointer, or picked by tap, key or number, and describes it on a card.
import {explain} from "./explain.mjs";
import {bestBox} from "./placing.mjs";
import {addText, byId} from "./svg.mjs";

/**
 * @param {Thing} one
 * @param {Thing} other
 */
function isSame(one, other) {
  return one === other || (one && other && one.node === other.node && one.low === other.low && one.high === other.high);
}

export class Inspector {
  /**
   * `machine()` is the shown state; `stage` is null without a drawing.
   * @param {() => import("./machine.mjs").Machine} machine
   * @param {import("./stage.mjs").Stage | null} stage
   */
  constructor(machine, stage) {
    this.machine = machine;
    this.stage = stage;
    /** @type {Thing | null} */
    this.picked = null;
    /** @type {Thing | null} */
    this.under = null;
    /** The node that the keys began from, or 0. */
    this.end = 0;
    byId("card-close").addEventListener("click", () => this.pick(null));
  }

  get thing() {
    return this.under ?? this.picked;
  }

  /** @param {Thing | null} thing */
  hover(thing) {
    if (!isSame(this.under, thing)) {
      this.under = thing;
      this.show();
    }
  }

  /** @param {Thing | null} thing */
  pick(thing) {
    this.picked = thing;
    this.under = null;
    this.show();
  }

  /** @param {Thing | null} thing */
  toggle(thing) {
    this.pick(isSame(this.picked, thing) ? null : thing);
  }

  /**
   * Moves the pick by this many present nodes; without one, picks the first or the last.
   * @param {number} step
   */
  stepNode(step) {
    const machine = this.machine();
    const from = this.hub || (step > 0 ? 0 : machine.nodes + 1);
    for (let v = from + step; v >= 1 && v <= machine.nodes; v += step) {
      if (machine.here[v]) {
        this.pick({ node: v });
        return;
      }
    }
  }

  /** The picked node, or the end of the picked edge that the keys began from. */
  get hub() {
    const { picked } = this;
    return picked === null ? 0 : picked.node ?? (this.end === picked.high ? picked.high : picked.low);
  }

  /** Picks the next edge of that node, cyclically. */
  stepEdge() {
    const { hub, picked } = this;
    const others = [...this.machine().neighbours[hub]].sort((a, b) => a - b);
    const at = picked?.node ? -1 : others.findIndex((w) => w === picked?.low || w === picked?.high);
    const other = others[at + 1] ?? others[0];
    if (other) {
      this.end = hub;
      this.pick({ low: Math.min(hub, other), high: Math.max(hub, other) });
    }
  }

  show() {
    const { thing } = this;
    const card = byId("card");
    card.hidden = thing === null;
    card.classList.toggle("picked", this.under === null);
    this.stage?.pick(thing);
    if (thing === null) {
      return;
    }
    const { heading, rule, rows } = explain(this.machine(), thing);
    byId("card-heading").textContent = heading;
    byId("card-rule").textContent = rule ?? "";
    byId("card-rows").replaceChildren();
    for (const [term, said] of rows) {
      const row = addText(byId("card-rows"), "div", "");
      addText(row, "dt", term);
      addText(row, "dd", said);
    }
    this.place();
  }

  place() {
    const { thing, stage } = this;
    if (thing === null || !stage) {
      return;
    }
    const card = byId("card");
    const whole = card.parentElement.getBoundingClientRect();
    const size = { width: card.offsetWidth, height: card.offsetHeight };
    const { left, top } =
      bestBox(stage.pixelOf(thing), stage.svg.getBoundingClientRect(), size, (box) => stage.shareIn(box));
    card.style.left = `${(left - whole.left).toFixed(0)}px`;
    card.style.top = `${(top - whole.top).toFixed(0)}px`;
  }
}
