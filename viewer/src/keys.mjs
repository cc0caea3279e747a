// The keys of the page. A field for typing keeps its own.

/**
 * @typedef {{ page: Record<string, string>, drawing: Record<string, string> }} Keys
 */

/** Keys while a transcript is played; those of the drawing only if it has the focus. */
export const PLAYER_KEYS = {
  page: {
    ArrowLeft: "back",
    ArrowRight: "forward",
    PageUp: "far-back",
    PageDown: "far-forward",
    Home: "first",
    End: "last",
    " ": "play",
    n: "next",
    p: "previous",
    "+": "zoom-in",
    "=": "zoom-in",
    "-": "zoom-out",
    0: "zoom-fit",
    f: "find",
    e: "edge",
    Escape: "let-go",
  },
  drawing: {ArrowUp: "node-before", ArrowDown: "node-behind"},
};

export const LAB_KEYS = {
  page: {
    " ": "run",
    ".": "step",
    z: "undo",
    y: "redo",
    x: "scramble",
    a: "join",
    1: "cut",
    2: "link",
    3: "point",
    4: "flag",
    5: "node",
    6: "move",
    "+": "zoom-in",
    "=": "zoom-in",
    "-": "zoom-out",
    0: "zoom-fit",
    e: "edge",
    Escape: "let-go",
  },
  drawing: {
    ArrowUp: "node-before",
    ArrowDown: "node-behind",
    Enter: "act",
    "Shift+ArrowLeft": "left",
    "Shift+ArrowRight": "right",
    "Shift+ArrowUp": "up",
    "Shift+ArrowDown": "down",
  },
};
const TYPED = new Set(["TEXTAREA", "SELECT"]);

/**
 * @param {HTMLInputElement} target
 * @param {string} key
 */
function takesKey(target, key) {
  if (target.type === "number") {
    return key.length > 1 ? key !== "Escape" : /[-+0-9]/.test(key);
  }
  return TYPED.has(target.tagName) || ((target.tagName === "BUTTON" || target.tagName === "SUMMARY") && key === " ");
}

/** @param {KeyboardEvent} event */
function nameOf(event) {
  return event.shiftKey && event.key.length > 1 ? `Shift+${event.key}` : event.key;
}

/**
 * Runs `actions` for keys until `signal` ends it.
 * @param {AbortSignal} signal
 * @param {Record<string, () => void>} actions
 * @param {Keys} keys
 */
export function listen(actions, keys, signal) {
  /** @param {EventTarget} target */
  const onDrawing = (target) => target instanceof SVGSVGElement;
  /** @param {KeyboardEvent} event */
  const heard = (event) => {
    const name = nameOf(event);
    const action = actions[(onDrawing(event.target) && keys.drawing[name]) || keys.page[name]];
    if (
      !action || event.ctrlKey || event.metaKey || event.altKey
      || takesKey(/** @type {HTMLInputElement} */ (event.target), event.key)) {
      return;
    }
    event.preventDefault();
    action();
  };
  document.addEventListener("keydown", heard, { signal });
}
