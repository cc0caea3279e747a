// Gestures on an element: hover, tap, drag, and two fingers. Places are pixels of the window.

// how many pixels a tapping finger may stray
const SLACK = 6;

/** @param {PointerEvent} event */
function placeOf(event) {
  return { x: event.clientX, y: event.clientY, finger: event.pointerType === "touch" };
}

/** @param {Place[]} places */
function middle([one, other = one]) {
  return { x: (one.x + other.x) / 2, y: (one.y + other.y) / 2 };
}

/** @param {Place[]} places */
function spread([one, other]) {
  return Math.max(1, Math.hypot(one.x - other.x, one.y - other.y));
}

/**
 * `press` comes before a tap or drag, with null if it turns out to be neither; `drop` after a drag by one
 * finger.
 * @typedef {object} Handlers
 * @property {(place: Place) => void} hover
 * @property {() => void} leave
 * @property {(place: Place) => void} tap
 * @property {(from: Place, to: Place) => void} drag
 * @property {(factor: number, from: Place, to: Place) => void} pinch
 * @property {(place: Place | null) => void} [press]
 * @property {(place: Place) => void} [drop]
 */

export class Gestures {
  /**
   * @param {SVGSVGElement} element
   * @param {Handlers} handlers
   */
  constructor(element, handlers) {
    this.element = element;
    this.handlers = handlers;
    /** @type {Map<number, Place>} */
    this.held = new Map();
    /** @type {Place | null} */
    this.start = null;
    this.strayed = false;
    element.addEventListener("pointerdown", (event) => this.press(event));
    element.addEventListener("pointermove", (event) => this.move(event));
    element.addEventListener("pointerup", (event) => this.release(event));
    element.addEventListener("pointercancel", (event) => this.cancel(event));
    element.addEventListener("pointerleave", () => this.held.size === 0 && handlers.leave());
    // the page does not scroll under two fingers
    for (const kind of /** @type {const} */ (["touchstart", "touchmove"])) {
      element.addEventListener(kind, (event) => event.touches.length > 1 && event.preventDefault(), { passive: false });
    }
  }

  /** @param {PointerEvent} event */
  press(event) {
    if (event.button !== 0) {
      return;
    }
    this.strayed = this.held.size > 0;
    this.start = { x: event.clientX, y: event.clientY };
    this.held.set(event.pointerId, this.start);
    this.element.setPointerCapture(event.pointerId);
    this.handlers.press?.(this.held.size === 1 ? placeOf(event) : null);
  }

  /** @param {PointerEvent} event */
  move(event) {
    const place = placeOf(event);
    if (!this.held.has(event.pointerId)) {
      if (event.pointerType === "mouse" && this.held.size === 0) {
        this.handlers.hover(place);
      }
      return;
    }
    this.strayed ||= Math.hypot(place.x - this.start.x, place.y - this.start.y) > SLACK;
    if (!this.strayed) {
      return;
    }
    const before = [...this.held.values()].slice(0, 2);
    this.held.set(event.pointerId, place);
    const behind = [...this.held.values()].slice(0, 2);
    if (before.length === 1) {
      this.handlers.drag(before[0], behind[0]);
    } else {
      this.handlers.pinch(spread(behind) / spread(before), middle(before), middle(behind));
    }
  }

  /** @param {PointerEvent} event */
  release(event) {
    const known = this.held.delete(event.pointerId);
    if (!known || this.held.size > 0) {
      return;
    }
    if (this.strayed) {
      this.handlers.drop?.(placeOf(event));
    } else {
      this.handlers.tap(placeOf(event));
    }
  }

  /** @param {PointerEvent} event */
  cancel(event) {
    this.held.delete(event.pointerId);
    this.handlers.press?.(null);
  }
}
