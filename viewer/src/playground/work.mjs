// Detects work that would be lost: acts by hand, neither saved nor copied, the first of them a while ago.

/** The page asks after this unsaved time, in milliseconds. */
export const WORTH = 60_000;

export class Work {
  /** @param {() => number} now milliseconds that never go back */
  constructor(now = () => performance.now()) {
    this.now = now;
    /**
     * The time of the first unsaved act, or null.
     * @type {number | null}
     */
    this.since = null;
  }

  acted() {
    this.since ??= this.now();
  }

  saved() {
    this.since = null;
  }

  get isAtRisk() {
    return this.since !== null && this.now() - this.since > WORTH;
  }

  /** Lets the browser ask before it leaves unsaved work. */
  listen() {
    addEventListener("beforeunload", (event) => {
      if (this.isAtRisk) {
        event.preventDefault();
        event.returnValue = "";
      }
    });
  }
}
