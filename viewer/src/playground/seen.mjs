// The state of a network, updated by replies or, after many, by a base; the nodes at rest; the complete rounds;
// and the moves and rounds that can come.
import {carryOut, changes} from "../entries.mjs";
import {Machine} from "../machine.mjs";
import {movesOf, readBase, readEntry} from "../transcript.mjs";

// after a longer text, a base is read instead of each entry
const LONG = 1 << 13;
const DISTURBANCE = /^\d+ (?:link|unlink|point|flag|join|leave) .* = ok$/m;

export class Seen extends Machine {
  /**
   * @param {RuleName} rules
   * @param {number} names
   * @param {number} present
   */
  constructor(rules, names, present) {
    super(rules, names, present);
    this.spent = 0;
    /** Whether the epoch began before the base that the network goes on from. */
    this.isCut = false;
    /** Which nodes are not at rest. */
    this.restless = new Uint8Array(names + 1);
    this.left = 0;
    /** The rounds that are complete since the last edit or fault, or since the base that the network goes on from. */
    this.rounds = 0;
    /** The most rounds that can come before the next edit or fault. */
    this.roundsLeft = 0;
  }

  /**
   * Goes on from a base.
   * @param {string} base
   */
  begin(base) {
    const { state, spent } = readBase(base, 0);
    this.load(state);
    this.spent = spent;
    this.isCut = true;
  }

  /**
   * @param {string} text whole lines, all since the last call
   * @param {import("../rudekpi/engine.mjs").Session} session that counts rounds
   */
  goOn(text, session) {
    if (text.length > LONG) {
      const { state, spent } = readBase(session.base(), 0);
      this.load(state);
      this.spent = spent;
      this.isCut &&= !DISTURBANCE.test(text);
    } else {
      this.follow(text);
    }
    this.left = this.enabledCount === 0 ? 0 : session.movesLeft();
    this.rounds = session.rounds();
    this.roundsLeft = session.roundsLeft();
    this.restless = this.here.map((present, v) => (present && !session.isAtRest(v) ? 1 : 0));
  }

  /**
   * The lines of a base change nothing.
   * @param {string} text whole lines
   */
  follow(text) {
    for (const line of text.split("\n")) {
      const entry = /^\d/.test(line) ? readEntry(line) : null;
      if (entry && changes(entry)) {
        carryOut(this, entry);
        this.spent = entry.disturbs ? 0 : this.spent + movesOf(entry).length;
        this.isCut &&= !entry.disturbs;
      }
    }
  }

  get enabledNodes() {
    return this.rule.flatMap((rule, v) => (rule === null ? [] : [v]));
  }

  get movesLeft() {
    return this.left;
  }

  /** In a cut epoch the bound by the edges: the moves that a base records may exceed the smaller one. */
  get epochBound() {
    return this.isCut ? this.bound : super.epochBound;
  }
}
