// The page's daemon: moves drawn from a seed, or many enabled nodes at once; step by step, or automatically.
// Scrambles use the same seeds.
import {byId, field} from "../svg.mjs";
import {chanceOf} from "./chance.mjs";
import {chosenBy, OF_MANY} from "./choices.mjs";
import {Runner} from "./runner.mjs";

const LAST_SEED = 999_999_999;
const MOST_SCRAMBLED = 1000;
const LEAST_PERCENT = 1;

/** @typedef {import("./lab.mjs").Lab} Lab */

export class Daemon {
  /** @param {import("./playground.mjs").Playground} play */
  constructor(play) {
    this.play = play;
    this.seed = 0;
    /** Whether the next move extends an act that is undone as one. */
    this.stretch = false;
    this.runner = new Runner(() => this.stepAll(), (count) => count > 0 && play.show());
  }

  nextSeed() {
    this.seed = (this.seed % LAST_SEED) + 1;
    return this.seed;
  }

  /** Makes one move in each network. Returns whether there was one. */
  stepAll() {
    return this.play.labs.map((lab) => this.stepOne(lab)).some(Boolean);
  }

  /** @param {Lab} lab */
  stepOne(lab) {
    const { play } = this;
    if (!lab.fed && lab.seen.enabledCount === 0) {
      return false;
    }
    const line = this.lineFor(lab);
    if (line === null) {
      return false;
    }
    const begins = !this.stretch;
    if (begins) {
      play.remember();
      this.stretch = true;
    }
    const made = play.attempt(() => play.feed(line, [lab]), begins);
    this.stretch = made !== null;
    if (made?.[0] === "") {
      // no node was enabled
      lab.lines.pop();
    }
    return Boolean(made?.[0]);
  }

  /**
   * The line of the next move, or null if no node is enabled.
   * @param {Lab} lab
   */
  lineFor(lab) {
    const daemon = field("daemon").value;
    if (!OF_MANY.includes(daemon) || !lab.seen.flags) {
      return `drive ${this.nextSeed()} 1`;
    }
    const { enabledNodes, neighbours } = lab.fed ? lab.look() : lab.seen;
    const draw = chanceOf(daemon === "all" ? 0 : this.nextSeed());
    const by = { neighbours, draw, probability: this.percent / 100 };
    return enabledNodes.length === 0 ? null : `step ${chosenBy(daemon, enabledNodes, by).join(" ")}`;
  }

  /** How probable a node's move is, in percent. */
  get percent() {
    return Math.min(100, Math.max(LEAST_PERCENT, Number(field("percent").value) || LEAST_PERCENT));
  }

  stepNow() {
    const { play } = this;
    this.run(false);
    this.stretch = false;
    if (this.stepAll()) {
      play.work.acted();
      play.show();
    } else if (play.labs.every((lab) => lab.seen.enabledCount === 0)) {
      play.story.say("No node is enabled: the network is silent.");
    }
    this.stretch = false;
  }

  /** @param {boolean} on */
  run(on) {
    if (on) {
      this.runner.start();
    } else {
      this.runner.stop();
    }
    byId("run").textContent = on ? "❚❚ pause" : "▶ run";
    byId("run").setAttribute("aria-pressed", String(on));
    this.play.story.runs = on;
    this.play.tell();
  }

  scramble() {
    const count = Math.min(MOST_SCRAMBLED, Math.max(1, Math.round(Number(field("faults").value)) || 1));
    this.play.disturb(`scramble ${this.nextSeed()} ${count}`);
  }
}
