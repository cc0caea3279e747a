// The chosen node in words, with what can be done to it.
import {explain} from "../explain.mjs";
import {addText, byId} from "../svg.mjs";

export class Card {
  /** @param {import("./tools.mjs").Acts} acts */
  constructor(acts) {
    this.acts = acts;
    /** @type {import("./lab.mjs").Lab | null} */
    this.lab = null;
    /** @type {Thing | null} */
    this.thing = null;
    byId("let-go").addEventListener("click", () => acts.choose(null));
    byId("do-move").addEventListener("click", () => acts.move(this.lab, `step ${this.thing.node}`));
    this.disturbs("do-free", ({ node }) => `point ${node} -`);
    this.disturbs("do-flag", ({ node }) => `flag ${node} ${1 - this.lab.seen.flag[node]}`);
    this.disturbs("do-leave", ({ node }) => `leave ${node}`);
    this.disturbs("do-cut", ({ low, high }) => `unlink ${low} ${high}`);
  }

  /**
   * A button that carries out a line. Under the mouse or the focus it shows that line's halo.
   * @param {string} id
   * @param {(thing: Thing) => string} lineOf
   */
  disturbs(id, lineOf) {
    const button = byId(id);
    button.addEventListener("click", () => this.acts.disturb(lineOf(this.thing)));
    ["pointerenter", "focus"].forEach(
      (kind) => button.addEventListener(
        kind, () => this.acts.intend(() => (this.thing && !button.hidden ? [lineOf(this.thing)] : []))));
    ["pointerleave", "blur"].forEach((kind) => button.addEventListener(kind, () => this.acts.intend(() => [])));
  }

  /**
   * @param {import("./lab.mjs").Lab} lab
   * @param {Thing | null} thing
   */
  show(lab, thing) {
    this.lab = lab;
    this.thing = thing;
    byId("chosen").hidden = thing === null;
    if (thing === null) {
      return;
    }
    const { seen } = lab;
    const { heading, rule, rows } = explain(seen, thing);
    byId("chosen-heading").textContent = heading;
    byId("chosen-rule").textContent = rule ?? "";
    byId("chosen-rows").replaceChildren();
    for (const [term, said] of rows) {
      const row = addText(byId("chosen-rows"), "div", "");
      addText(row, "dt", term);
      addText(row, "dd", said);
    }
    const here = thing.node !== undefined && seen.here[thing.node] === 1;
    byId("do-move").hidden = !here || !rule;
    byId("do-move").textContent = `let it ${rule}`;
    byId("do-free").hidden = !here || seen.pointer[thing.node] === 0;
    byId("do-flag").hidden = !here || !seen.flags;
    byId("do-leave").hidden = !here;
    byId("do-cut").hidden = thing.node !== undefined || !seen.neighbours[thing.low].has(thing.high);
  }
}
