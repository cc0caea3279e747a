// Runs the network automatically: some moves a second, as long as any node is enabled.

// how many milliseconds of a picture moves may take
const MOST_TIME = 8;

export class Runner {
  /**
   * @param {() => boolean} step lets each network move once, and returns whether one did
   * @param {(count: number) => void} shown shows the result of `count` such moves
   */
  constructor(step, shown) {
    this.step = step;
    this.shown = shown;
    this.on = false;
    this.speed = 4;
    this.owed = 0;
    /** @type {number | null} */
    this.since = null;
  }

  start() {
    this.on = true;
    if (this.since === null) {
      this.since = performance.now();
      this.owed = 0;
      requestAnimationFrame((now) => this.tick(now));
    }
  }

  stop() {
    this.on = false;
  }

  /** @param {number} now */
  tick(now) {
    if (!this.on) {
      this.since = null;
      return;
    }
    this.owed = Math.min(this.owed + (Math.max(0, now - this.since) / 1000) * this.speed, this.speed);
    this.since = Math.max(now, this.since);
    const end = performance.now() + MOST_TIME;
    let made = 0;
    while (this.owed >= 1 && performance.now() < end) {
      this.owed -= 1;
      if (!this.step()) {
        this.owed = 0;
        break;
      }
      made += 1;
    }
    this.shown(made);
    requestAnimationFrame((then) => this.tick(then));
  }
}
