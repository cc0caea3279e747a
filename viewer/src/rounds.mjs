// Counts the complete rounds of a run while it is replayed.

export class Rounds {
  /** @param {import("./machine.mjs").Machine} machine in the state that the run begins in */
  constructor(machine) {
    this.machine = machine;
    /** The complete rounds since the last edit or fault, or since the beginning. */
    this.complete = 0;
    /**
     * The nodes that the current round still waits for: none between two rounds.
     * @type {Set<number>}
     */
    this.pending = new Set();
  }

  /** An edit or a fault cuts the round off. */
  disturb() {
    this.complete = 0;
    this.pending.clear();
  }

  /**
   * Follows a step, which `make` carries out. A round ends once each node that was enabled at its start has moved,
   * or was not enabled since.
   * @param {number[]} movers
   * @param {() => void} make
   */
  step(movers, make) {
    const { machine } = this;
    if (this.pending.size === 0) {
      this.pending = new Set(machine.enabledNames);
    }
    make();
    for (const v of movers) {
      this.pending.delete(v);
      // a step changes the rules of movers and their neighbours alone
      machine.neighbours[v].forEach((w) => machine.rule[w] === null && this.pending.delete(w));
    }
    this.complete += this.pending.size === 0 ? 1 : 0;
  }
}
