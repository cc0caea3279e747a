// Replays a transcript once. Keeps the plots' values of every entry, and snapshots at intervals to go back
// to.
import {Machine, mostAmong, mostRoundsAmong, RULE_SETS} from "./machine.mjs";
import {carryOut, changes, isPossible} from "./entries.mjs";
import {lastOf, lastWhere} from "./lists.mjs";
import {Rounds} from "./rounds.mjs";
import {movesOf, wordsOf} from "./transcript.mjs";

const SNAPSHOT_BYTES = 64 << 20;
const LEAST_SPACING = 200;

export class Replay {
  /** @param {import("./transcript.mjs").Transcript} transcript */
  constructor(transcript) {
    this.transcript = transcript;
    this.machine = new Machine(transcript.rules, transcript.nodes, transcript.present);
    if (transcript.state) {
      this.machine.load(transcript.state);
    }
    this.at = transcript.first;
    this.weight = RULE_SETS[transcript.rules].weight;
    const places = transcript.length + 1;
    /** @type {Record<string, Int32Array>} */
    this.series = Object.fromEntries(["charge", "spent", "rounds", "nodes", "edges", "pairs", "enabled"].map(
      (name) => [name, new Int32Array(places)]));
    /** @type {number[]} */
    this.disturbances = [];
    // the last entry of each burst: disturbances without moves between them
    /** @type {number[]} */
    this.burstEnds = [];
    /** @type {number | null} */
    this.firstMove = null;
    this.lastMove = 0;
    this.moves = 0;
    this.rounds = new Rounds(this.machine);
    /** @type {Map<number, Link>} */
    this.union = new Map();
    /** @type {{ number: number, state: MachineState }[]} */
    this.snapshots = [];
    this.playOnce();
  }

  playOnce() {
    const { first, last } = this.transcript;
    let next = first;
    let { spent } = this.transcript;
    this.machine.edges().forEach((edge) => this.meet(edge));
    this.note(first, spent);
    for (let number = first + 1; number <= last; number += 1) {
      if (number - 1 === next) {
        this.snapshots.push({ number: next, state: this.machine.snapshot() });
        next += this.spacing();
      }
      const entry = this.transcript.entry(number);
      if (changes(entry)) {
        spent = this.change(entry, spent);
      }
      if (entry.disturbs) {
        this.disturbances.push(number);
        this.noteBurst(number);
      } else if (changes(entry)) {
        this.firstMove ??= number;
        this.lastMove = number;
      }
      if (entry.disturbs && entry.kind === "link") {
        this.meet(wordsOf(entry).map(Number));
      }
      this.note(number, spent);
    }
    this.at = last;
  }

  /** @param {number} number */
  noteBurst(number) {
    const goesOn = this.burstEnds.length > 0 && !(this.lastMove > lastOf(this.burstEnds));
    this.burstEnds.splice(goesOn ? -1 : this.burstEnds.length, 1, number);
  }

  /**
   * @param {Entry} entry
   * @param {number} spent
   */
  change(entry, spent) {
    if (!isPossible(this.machine, entry)) {
      throw this.transcript.fault(entry.number, "is nothing that the machine does there");
    }
    if (entry.disturbs) {
      carryOut(this.machine, entry);
      this.rounds.disturb();
      return 0;
    }
    const moves = movesOf(entry);
    this.rounds.step(moves.map(({ node }) => node), () => carryOut(this.machine, entry));
    this.moves += moves.length;
    return spent + moves.length;
  }

  /** Chosen so that all snapshots fit in memory and cost less time than the entries. */
  spacing() {
    const { nodes, edgeCount } = this.machine;
    const bytes = 6 * nodes + 8 * edgeCount + 100;
    return Math.max(
      LEAST_SPACING, Math.ceil((nodes + edgeCount) / 10), Math.ceil((this.transcript.length * bytes) / SNAPSHOT_BYTES));
  }

  /**
   * @param {number} number
   * @param {number} spent
   */
  note(number, spent) {
    const { machine, series } = this;
    const place = number - this.transcript.first;
    series.charge[place] = machine.charge;
    series.spent[place] = spent;
    series.rounds[place] = this.rounds.complete;
    series.nodes[place] = machine.present;
    series.edges[place] = machine.edgeCount;
    series.pairs[place] = machine.pairCount;
    series.enabled[place] = machine.enabledCount;
  }

  /**
   * @param {string} name
   * @param {number} number
   */
  valueAt(name, number) {
    return this.series[name][number - this.transcript.first];
  }

  /** @param {number[]} ends */
  meet(ends) {
    const [v, w] = ends.sort((a, b) => a - b);
    this.union.set(v * 65536 + w, [v, w]);
  }

  get edgesEver() {
    return [...this.union.values()];
  }

  /** What `audit` says of an accepted transcript, by this replay's own counts. */
  get verdict() {
    return `accepted: ${this.transcript.length} entries, ${this.disturbances.length + 1} epochs, ${this.moves} moves`;
  }

  /** @param {number} number */
  movesLeft(number) {
    if (this.valueAt("enabled", number) === 0) {
      return 0;
    }
    return Math.min(this.valueAt("charge", number), mostAmong(this.transcript.rules, this.valueAt("nodes", number)));
  }

  /**
   * The most rounds that the epoch of an entry may complete.
   * @param {number} number
   */
  mostRounds(number) {
    return mostRoundsAmong(this.transcript.rules, this.valueAt("nodes", number));
  }

  /**
   * Whether a round ends with an entry.
   * @param {number} number
   */
  endsRound(number) {
    return number > this.transcript.first && this.valueAt("rounds", number) > this.valueAt("rounds", number - 1);
  }

  /**
   * Whether the bound of an entry's epoch is the one by the nodes alone, because it is smaller. An epoch cut
   * by an opening base has the other bound: the spent moves that the base records may exceed the smaller one.
   * @param {number} number
   */
  isBoundByNodes(number) {
    const { rules, state } = this.transcript;
    const isCut = state !== null && this.epochAt(number).place === 1;
    return !isCut && mostAmong(rules, this.valueAt("nodes", number)) < this.boundByEdges(number);
  }

  /** @param {number} number */
  boundByEdges(number) {
    return 2 * this.valueAt("edges", number) + this.weight * this.valueAt("nodes", number);
  }

  /** @param {number} number */
  bound(number) {
    return this.isBoundByNodes(number) ? mostAmong(this.transcript.rules, this.valueAt("nodes", number)) :
                                         this.boundByEdges(number);
  }

  /**
   * The disturbance that began the epoch of an entry, or null if the transcript begins at a base after it;
   * and the number of the epoch, from 1.
   * @param {number} number
   */
  epochAt(number) {
    let [low, high] = [0, this.disturbances.length];
    while (low < high) {
      const middle = (low + high) >> 1;
      [low, high] = this.disturbances[middle] <= number ? [middle + 1, high] : [low, middle];
    }
    const opening = this.transcript.first === 0 ? 0 : null;
    return { start: low === 0 ? opening : this.disturbances[low - 1], place: low + 1 };
  }

  /**
   * The end of the first burst that ends after an entry, or null.
   * @param {number} number
   */
  nextDisturbance(number) {
    return this.burstEnds.find((end) => end > number) ?? null;
  }

  /** @param {number} number */
  previousDisturbance(number) {
    return lastWhere(this.burstEnds, (end) => end < number) ?? null;
  }

  /**
   * The entry to open at: the base, else the first move, so that the network has its edges. Without moves,
   * the end of the first burst.
   */
  get opening() {
    const { first, state } = this.transcript;
    return state ? first : this.firstMove ?? this.burstEnds[0] ?? first;
  }

  /** @param {number} number */
  goTo(number) {
    const last = lastWhere(this.snapshots, (snapshot) => snapshot.number <= number);
    if (last && (number < this.at || last.number > this.at)) {
      this.machine.load(last.state);
      this.at = last.number;
    }
    while (this.at < number) {
      this.at += 1;
      const entry = this.transcript.entry(this.at);
      if (changes(entry)) {
        carryOut(this.machine, entry);
      }
    }
    return this.machine;
  }
}
