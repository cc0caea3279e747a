// The machine of the definitions: a network with its registers and each node's enabled rule. A change updates
// the counts, at a cost of its neighbourhood, not of the network.

/** The most that a node adds to a bound, and what a rule set does with flags. */
export const RULE_SETS = {
  hh: {weight: 1, flags: false},
  manne: {weight: 3, flags: true}
};

const NOBODY = 0;

/**
 * The most moves between two disturbances among `present` nodes, whatever the edges. Under hh n²/2 + n - 2,
 * the half rounded down, and 0 for fewer than two nodes. Under manne no such bound is known: `Infinity`.
 * @param {RuleName} rules
 * @param {number} present
 */
export function mostAmong(rules, present) {
  if (rules !== "hh") {
    return Infinity;
  }
  return present < 2 ? 0 : Math.floor((present * present) / 2) + present - 2;
}

/**
 * The most rounds between two disturbances among `present` nodes: n under hh; 2n under manne, or 2n - 1 if n is
 * odd.
 * @param {RuleName} rules
 * @param {number} present
 */
export function mostRoundsAmong(rules, present) {
  return rules === "hh" ? present : present + 2 * Math.floor(present / 2);
}

export class Machine {
  /**
   * A network of the names 1 to `nodes` without edges; the first `present` are present.
   * @param {RuleName} rules
   * @param {number} nodes
   */
  constructor(rules, nodes, present = nodes) {
    this.rules = rules;
    this.nodes = nodes;
    this.flags = RULE_SETS[rules].flags;
    const here = new Uint8Array(nodes + 1).fill(1, 1, present + 1);
    this.load({ here, pointers: new Int32Array(nodes + 1), flags: new Uint8Array(nodes + 1), ends: new Int32Array(0) });
  }

  snapshot() {
    const ends = new Int32Array(2 * this.edgeCount);
    this.edges().forEach(([v, w], at) => ends.set([v, w], 2 * at));
    return { here: this.here.slice(), pointers: this.pointer.slice(), flags: this.flag.slice(), ends };
  }

  /** @param {MachineState} state */
  load({ here, pointers, flags, ends }) {
    this.here = here.slice();
    this.pointer = pointers.slice();
    this.flag = flags.slice();
    this.neighbours = Array.from({ length: this.nodes + 1 }, () => new Set());
    for (let at = 0; at < ends.length; at += 2) {
      this.neighbours[ends[at]].add(ends[at + 1]);
      this.neighbours[ends[at + 1]].add(ends[at]);
    }
    this.edgeCount = ends.length / 2;
    this.recount();
  }

  recount() {
    this.suitors = new Int32Array(this.nodes + 1);
    this.open = new Int32Array(this.nodes + 1);
    /** @type {(string | null)[]} */
    this.rule = new Array(this.nodes + 1).fill(null);
    /** @type {Set<number>} */
    this.enabledNames = new Set();
    this.present = this.openEdges = this.nodeCharges = this.pairCount = this.enabledCount = 0;
    for (let v = 1; v <= this.nodes; v += 1) {
      if (this.pointer[v] !== NOBODY) {
        this.suitors[this.pointer[v]] += 1;
      }
      for (const w of this.neighbours[v]) {
        this.open[v] += this.isOpenTo(w, v) ? 1 : 0;
      }
    }
    for (let v = 1; v <= this.nodes; v += 1) {
      this.look(v);
      this.present += this.here[v];
      this.nodeCharges += this.nodeCharge(v);
      this.pairCount += this.partner(v) > v ? 1 : 0;
      for (const w of this.neighbours[v]) {
        this.openEdges += v < w && !this.isClosed(v, w) ? 1 : 0;
      }
    }
  }

  /** All edges, each with its lower end first. */
  edges() {
    const found = [];
    for (let v = 1; v <= this.nodes; v += 1) {
      for (const w of this.neighbours[v]) {
        if (v < w) {
          found.push([v, w]);
        }
      }
    }
    return found;
  }

  /**
   * The node that v points at and that points back, or 0.
   * @param {number} v
   */
  partner(v) {
    const w = this.pointer[v];
    return w !== NOBODY && this.pointer[w] === v ? w : NOBODY;
  }

  /** @param {number} v */
  isMarried(v) {
    return this.partner(v) !== NOBODY;
  }

  /**
   * Whether v, if it is free to seduce, may seduce its neighbour w.
   * @param {number} w
   * @param {number} v
   */
  isOpenTo(w, v) {
    return this.pointer[w] === NOBODY && (!this.flags || (this.flag[w] === 0 && w > v));
  }

  /** @param {number} v */
  ruleAt(v) {
    if (this.flags && this.isMarried(v) !== (this.flag[v] === 1)) {
      return "update";
    }
    const w = this.pointer[v];
    if (w === NOBODY) {
      if (this.suitors[v] > 0) {
        return "marry";
      }
      return this.open[v] > 0 ? "seduce" : null;
    }
    const gone = this.flags ? this.flag[w] === 1 || w < v : this.pointer[w] !== NOBODY;
    return this.pointer[w] !== v && gone ? "abandon" : null;
  }

  /**
   * The neighbours that v, if it is free to, may seduce; by Manne's rules only the greatest of them is a
   * target.
   * @param {number} v
   */
  openNeighbours(v) {
    return [...this.neighbours[v]].filter((w) => this.isOpenTo(w, v)).sort((a, b) => a - b);
  }

  /** @param {number} w */
  isCourted(w) {
    return this.pointer[w] === NOBODY && this.suitors[w] > 0;
  }

  /**
   * @param {number} v
   * @param {number} w
   */
  awaits(v, w) {
    return this.pointer[v] === w && this.pointer[w] === NOBODY;
  }

  /**
   * Whether the edge from v to w adds nothing to the charge.
   * @param {number} v
   * @param {number} w
   */
  isClosed(v, w) {
    if (this.isMarried(v) || this.isMarried(w)) {
      return true;
    }
    if (this.flags) {
      const [low, high] = v < w ? [v, w] : [w, v];
      return this.pointer[low] === high && this.flag[high] === 0;
    }
    return this.awaits(v, w) || this.awaits(w, v) || (this.isCourted(v) && this.isCourted(w));
  }

  /**
   * What v adds to the charge, apart from open edges. An absent name adds nothing.
   * @param {number} v
   */
  nodeCharge(v) {
    const married = this.isMarried(v);
    const unanswered = this.pointer[v] !== NOBODY && !married ? 1 : 0;
    if (!this.flags) {
      return unanswered;
    }
    return unanswered + (this.flag[v] === 1 ? (married ? 0 : 2) : this.here[v]);
  }

  get charge() {
    return 2 * this.openEdges + this.nodeCharges;
  }

  /** The bound on moves spent and charge together: 2m + n under hh, 2m + 3n under manne. */
  get bound() {
    return 2 * this.edgeCount + RULE_SETS[this.rules].weight * this.present;
  }

  get epochBound() {
    return Math.min(this.bound, mostAmong(this.rules, this.present));
  }

  get mostRounds() {
    return mostRoundsAmong(this.rules, this.present);
  }

  /** The most moves that can come before the next disturbance: none if no rule is enabled. */
  get movesLeft() {
    return this.enabledCount === 0 ? 0 : Math.min(this.charge, mostAmong(this.rules, this.present));
  }

  /** @param {number} v */
  look(v) {
    const rule = this.ruleAt(v);
    if (rule && !this.rule[v]) {
      this.enabledCount += 1;
      this.enabledNames.add(v);
    } else if (!rule && this.rule[v]) {
      this.enabledCount -= 1;
      this.enabledNames.delete(v);
    }
    this.rule[v] = rule;
  }

  /**
   * Adds `sign` times what these nodes and their edges count.
   * @param {number[]} touched
   * @param {number} sign
   */
  count(touched, sign) {
    touched.forEach((v, at) => {
      this.nodeCharges += sign * this.nodeCharge(v);
      const w = this.partner(v);
      this.pairCount += w !== NOBODY && !touched.slice(0, at).includes(w) ? sign : 0;
      for (const x of this.neighbours[v]) {
        const counted = at > 0 && (x === touched[0] || (at > 1 && x === touched[1]));
        this.openEdges += !counted && !this.isClosed(v, x) ? sign : 0;
      }
    });
  }

  /**
   * The nodes whose edges may count differently once v points at `target`: v, and each target whose married
   * or courted state changes.
   * @param {number} v
   * @param {number} target
   */
  touchedBy(v, target) {
    const old = this.pointer[v];
    /**
     * @param {number} w
     * @param {number} suitors
     */
    const turns = (w, suitors) => this.pointer[w] === v || (this.pointer[w] === NOBODY && this.suitors[w] === suitors);
    const touched = [v];
    if (old !== target && old !== NOBODY && turns(old, 1)) {
      touched.push(old);
    }
    if (old !== target && target !== NOBODY && turns(target, 0)) {
      touched.push(target);
    }
    return touched;
  }

  /**
   * Writes v's registers; `target` is a neighbour, or 0.
   * @param {number} v
   * @param {number} target
   * @param {number} flag
   */
  write(v, target, flag) {
    const old = this.pointer[v];
    const touched = this.touchedBy(v, target);
    this.count(touched, -1);
    this.suitors[old] -= old === NOBODY ? 0 : 1;
    this.suitors[target] += target === NOBODY ? 0 : 1;
    const shown = [...this.neighbours[v]];
    const opened = shown.map((w) => this.isOpenTo(v, w));
    this.pointer[v] = target;
    this.flag[v] = flag;
    shown.forEach((w, at) => {
      this.open[w] += (this.isOpenTo(v, w) ? 1 : 0) - (opened[at] ? 1 : 0);
    });
    this.count(touched, 1);
    this.look(v);
    shown.forEach((w) => this.look(w));
  }

  /**
   * @param {number} v
   * @param {number} w
   */
  link(v, w) {
    this.neighbours[v].add(w);
    this.neighbours[w].add(v);
    this.edgeCount += 1;
    this.countEdge(v, w, 1);
  }

  /**
   * @param {number} v
   * @param {number} w
   */
  unlink(v, w) {
    if (this.pointer[v] === w) {
      this.write(v, NOBODY, this.flag[v]);
    }
    if (this.pointer[w] === v) {
      this.write(w, NOBODY, this.flag[w]);
    }
    this.neighbours[v].delete(w);
    this.neighbours[w].delete(v);
    this.edgeCount -= 1;
    this.countEdge(v, w, -1);
  }

  /**
   * @param {number} v
   * @param {number} here
   */
  setPresent(v, here) {
    this.nodeCharges -= this.nodeCharge(v);
    this.present += here - this.here[v];
    this.here[v] = here;
    this.nodeCharges += this.nodeCharge(v);
  }

  /** @param {number} v */
  join(v) {
    this.setPresent(v, 1);
  }

  /** @param {number} v */
  leave(v) {
    for (const w of [...this.neighbours[v]]) {
      this.unlink(v, w);
    }
    this.write(v, NOBODY, 0);
    this.setPresent(v, 0);
  }

  /**
   * Counts an edge that no pointer crosses.
   * @param {number} v
   * @param {number} w
   * @param {number} sign
   */
  countEdge(v, w, sign) {
    this.openEdges += this.isClosed(v, w) ? 0 : sign;
    this.open[v] += this.isOpenTo(w, v) ? sign : 0;
    this.open[w] += this.isOpenTo(v, w) ? sign : 0;
    this.look(v);
    this.look(w);
  }

  /**
   * Makes all moves at once: each reads the state before the step.
   * @param {Move[]} moves
   */
  step(moves) {
    const writes = moves.map(
      ({ node, rule, target }) =>
        rule === "update" ? [node, this.pointer[node], this.isMarried(node) ? 1 : 0] : [node, target, this.flag[node]],
    );
    for (const [node, target, flag] of writes) {
      this.write(node, target, flag);
    }
  }

  /** @param {number} spent */
  status(spent) {
    const { present, edgeCount, pairCount, enabledCount, charge } = this;
    return `nodes=${present} edges=${edgeCount} pairs=${pairCount} enabled=${enabledCount} charge=${charge} spent=${
      spent}`;
  }
}
