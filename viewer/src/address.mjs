// The entry number in the page's address, so that a link leads back to the entry.

// browsers refuse more than some hundred changes of an address in half a minute
const LEAST_GAP = 400;

export class Address {
  /**
   * Calls `goTo` if someone edits the address, until `signal` ends it.
   * @param {(number: number) => void} goTo
   * @param {AbortSignal} signal
   */
  constructor(goTo, signal) {
    this.written = -Infinity;
    /** @type {ReturnType<typeof setTimeout> | null} */
    this.timer = null;
    /** @type {number | null} */
    this.number = null;
    this.known = location.hash;
    const heard = () => {
      this.known = location.hash;
      if (this.entry !== null) {
        goTo(this.entry);
      }
    };
    addEventListener("hashchange", heard, { signal });
    addEventListener("pagehide", () => this.write(), { signal });
    signal.addEventListener("abort", () => clearTimeout(this.timer));
  }

  get entry() {
    return /^#\d+$/.test(location.hash) ? Number(location.hash.slice(1)) : null;
  }

  /**
   * Writes a number soon, the last of several.
   * @param {number} number
   */
  show(number) {
    this.number = number;
    this.timer ??= setTimeout(() => this.write(), Math.max(0, this.written + LEAST_GAP - performance.now()));
  }

  write() {
    clearTimeout(this.timer);
    this.timer = null;
    // a number just typed is not overwritten: the page goes to it
    if (this.number !== null && this.number !== this.entry && location.hash === this.known) {
      this.written = performance.now();
      history.replaceState(history.state, "", `#${this.number}`);
      this.known = location.hash;
    }
  }
}
