// Moves through the transcript: slider, buttons, keys, and automatic play.
import {grouped} from "./numbers.mjs";
import {byId, field} from "./svg.mjs";

const FAR = 10;

export class Player {
  /**
   * @param {import("./replay.mjs").Replay} replay
   * @param {(number: number) => void} show
   */
  constructor(replay, show) {
    const { first, last, state } = replay.transcript;
    this.replay = replay;
    this.show = show;
    this.first = first;
    this.last = last;
    this.at = first;
    this.owed = 0;
    /** @type {number | null} */
    this.since = null;
    /**
     * Called with the entry that a person went to.
     * @type {(number: number) => void}
     */
    this.moved = () => {};
    if (state) {
      byId("first").title = "the base (Home)";
      byId("first").setAttribute("aria-label", "the base");
    }
    field("slider").max = field("go").max = String(last);
    field("slider").min = field("go").min = String(first);
    field("slider").addEventListener("input", () => this.goTo(Number(field("slider").value)));
    field("go").addEventListener("change", () => this.goTo(Number(field("go").value)));
    /** @type {Record<string, () => void>} */
    this.actions = {
      first: () => this.goTo(first),
      back: () => this.goTo(this.at - 1),
      play: () => this.toggle(),
      forward: () => this.goTo(this.at + 1),
      last: () => this.goTo(last),
      previous: () => this.goTo(replay.previousDisturbance(this.at) ?? first),
      next: () => this.goTo(replay.nextDisturbance(this.at) ?? last),
      "far-back": () => this.goTo(this.at - FAR),
      "far-forward": () => this.goTo(this.at + FAR),
    };
    for (const name of ["first", "back", "play", "forward", "last", "previous", "next"]) {
      byId(name).addEventListener("click", this.actions[name]);
    }
  }

  /**
   * Goes to an entry by hand, and stops play.
   * @param {number} number
   */
  goTo(number) {
    this.pause();
    this.move(number);
  }

  /** @param {number} number */
  move(number) {
    this.at = Math.min(this.last, Math.max(this.first, Math.round(number) || 0));
    field("slider").value = field("go").value = String(this.at);
    byId("slider").setAttribute("aria-valuetext", `entry ${grouped(this.at)} of ${grouped(this.last)}`);
    field("first").disabled = field("back").disabled = field("previous").disabled = this.at === this.first;
    field("last").disabled = field("forward").disabled = field("next").disabled = this.at === this.last;
    this.show(this.at);
    this.moved(this.at);
  }

  get speed() {
    return Number(field("speed").value);
  }

  toggle() {
    if (this.since !== null) {
      this.pause();
      return;
    }
    if (this.at === this.last) {
      this.move(this.first);
    }
    this.since = performance.now();
    this.owed = 0;
    this.showPlaying();
    requestAnimationFrame((now) => this.tick(now));
  }

  pause() {
    if (this.since !== null) {
      this.since = null;
      this.showPlaying();
    }
  }

  showPlaying() {
    const playing = this.since !== null;
    byId("play").textContent = playing ? "❚❚ pause" : "▶ play";
    byId("entry").setAttribute("aria-live", playing ? "off" : "polite");
  }

  /** @param {number} now */
  tick(now) {
    if (this.since === null) {
      return;
    }
    this.owed += (Math.max(0, now - this.since) / 1000) * this.speed;
    this.since = Math.max(now, this.since);
    const due = Math.floor(this.owed);
    this.owed -= due;
    if (due > 0) {
      this.move(this.at + due);
    }
    if (this.at === this.last) {
      this.pause();
    } else {
      requestAnimationFrame((then) => this.tick(then));
    }
  }
}
