// Undo and redo: the lengths of all labs' scripts before each act.

/** @typedef {import("./lab.mjs").Lab} Lab */
/**
 * For each lab the number of lines that stayed, or all its lines if the act changed earlier ones.
 * @typedef {(number | string[])[]} Point
 */

export class Past {
  constructor() {
    /** @type {Point[]} */
    this.acts = [];
    /**
     * What was undone: its starting point, and for each lab the removed lines.
     * @type {{ point: Point, lines: string[][] }[]}
     */
    this.undone = [];
    this.before = this.undone;
  }

  /**
   * With `whole` the act may change existing lines.
   * @param {Lab[]} labs
   * @param {boolean} whole
   */
  remember(labs, whole = false) {
    this.acts.push(labs.map((lab) => (whole ? lab.lines.slice() : lab.lines.length)));
    this.before = this.undone;
    this.undone = [];
  }

  forget() {
    this.acts.pop();
    this.undone = this.before;
  }

  /**
   * Undoes the last act: the lines that each lab has then, or null if there is no act.
   * @param {Lab[]} labs
   */
  back(labs) {
    const point = this.acts.pop();
    if (!point) {
      return null;
    }
    this.undone.push({
      point,
      lines: labs.map(
        ({ lines }, at) =>
          (typeof point[at] === "number" ? lines.slice(/** @type {number} */ (point[at])) : lines.slice()))
    });
    return point.map((kept, at) => (typeof kept === "number" ? labs[at].lines.slice(0, kept) : kept));
  }

  /**
   * Redoes the act undone last; returns what `back` does.
   * @param {Lab[]} labs
   */
  again(labs) {
    const undone = this.undone.pop();
    if (!undone) {
      return null;
    }
    this.acts.push(undone.point);
    return undone.point.map(
      (kept, at) =>
        (typeof kept === "number" ? [...labs[at].lines.slice(0, kept), ...undone.lines[at]] : undone.lines[at]));
  }
}
