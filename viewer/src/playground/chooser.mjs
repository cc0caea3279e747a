// The chosen node or edge, and the keys to the next one.

/** @typedef {import("./seen.mjs").Seen} Seen */

export class Chooser {
  /** @param {(thing: Thing | null) => void} shown called with the chosen thing */
  constructor(shown) {
    this.shown = shown;
    /** @type {Thing | null} */
    this.thing = null;
    /** The node whose links the keys step through, or 0. */
    this.hub = 0;
  }

  /** @param {Thing | null} thing */
  choose(thing) {
    this.thing = thing;
    this.shown(thing);
  }

  /**
   * @param {Seen} seen
   * @param {number} step 1 or -1
   */
  walk(seen, step) {
    const from = this.thing?.node ?? this.thing?.low ?? (step > 0 ? 0 : seen.nodes + 1);
    for (let v = from + step; v >= 1 && v <= seen.nodes; v += step) {
      if (seen.here[v]) {
        this.choose({ node: v });
        return;
      }
    }
  }

  /**
   * Chooses the next link of the chosen node or end; if that is gone, begins at the first node with a link.
   * @param {Seen} seen
   */
  turn(seen) {
    const { thing } = this;
    const hub = this.hubOf(seen);
    const others = [...(seen.neighbours[hub] ?? [])].sort((a, b) => a - b);
    const at = thing?.low ? others.findIndex((w) => w === thing.low || w === thing.high) : -1;
    const other = others[at + 1] ?? others[0];
    if (other) {
      this.hub = hub;
      this.choose({ low: Math.min(hub, other), high: Math.max(hub, other) });
    }
  }

  /** @param {Seen} seen */
  hubOf(seen) {
    const { thing } = this;
    const chosen = thing?.node ?? (thing && thing.high === this.hub ? this.hub : thing?.low ?? 0);
    return chosen && seen.here[chosen] ? chosen : seen.neighbours.findIndex((others) => others.size > 0);
  }
}
