// The state that a reload restores: in the browser's session storage, which ends with the tab, and large texts
// in the browser's database. The network and the transcript are kept apart: one that can't be kept takes
// nothing along.
import {putText, removeOldTexts, textOf} from "./large_texts.mjs";

const VERSION = 2;
// longer texts go to the database
const LARGE = 1 << 20;
const WHAT = {
  lab: "network",
  transcript: "transcript"
};
const PARTS = /** @type {const} */ (["lab", "transcript"]);

/** @typedef {typeof PARTS[number]} Part */
/**
 * @typedef {{ plan: Plan, places: Size & { x: number[], y: number[] }, placeless: number[], at: number,
 * source: import("./sources.mjs").Source | null, preset: string, size: string, seed: string,
 * daemonSeed: number }} KeptLab
 */
/** The place of a part: none, in the session storage, or in the database under a ticket. */
/** @typedef {null | "here" | { ticket: string }} Place */
/** @typedef {{ version: number, hash: string, view: string, file: string, lab: Place, transcript: Place }} Head */
/**
 * A kept state. `lost` names its parts that the browser no longer has.
 * @typedef {{ view: string, lab: KeptLab | null, transcript: string | null, file: string, lost: Part[] }} Kept
 */

/** @param {string} part */
function key(part = "") {
  return `rudekpi ${location.pathname}${part}`;
}

/** @param {string} hash */
function holdsScript(hash) {
  return new URLSearchParams(hash.replace(/^#/, "")).has("script");
}

/**
 * Whether the session storage took a text, or removed it for null.
 * @param {string} name
 * @param {string | null} text
 */
function stored(name, text) {
  try {
    if (text === null) {
      sessionStorage.removeItem(name);
    } else {
      sessionStorage.setItem(name, text);
    }
    return true;
  } catch {
    return false;
  }
}

function newTicket() {
  return Array.from(crypto.getRandomValues(new Uint32Array(4)), (part) => part.toString(36)).join("-");
}

/** Keeps what the page has, part by part, and says at once what the browser does not keep. */
export class Keeper {
  /** @param {(said: string) => void} say */
  constructor(say) {
    this.say = say;
    /**
     * The text of each part as it was kept last, and its place.
     * @type {Record<Part, { text: string | null, place: Place }>}
     */
    this.parts = { lab: { text: null, place: null }, transcript: { text: null, place: null } };
    /** The parts that were reported as not kept. */
    this.told = new Set();
    /** How many large texts are on their way. */
    this.writing = 0;
    this.view = "lab";
    this.file = "";
  }

  /**
   * Returns once all is kept, or it was said what is not.
   * @param {string} view "lab" or "player"
   * @param {KeptLab | null} lab
   * @param {string | null} transcript
   * @param {string} file that of the transcript
   */
  async keep(view, lab, transcript, file) {
    this.view = view;
    this.file = file;
    const late = [this.put("lab", lab && JSON.stringify(lab)), this.put("transcript", transcript)];
    this.head();
    await Promise.all(late);
  }

  /** Writes the places of the parts. */
  head() {
    const { view, file, parts: { lab, transcript } } = this;
    stored(
      key(),
      JSON.stringify(
        { version: VERSION, hash: location.hash, view, file, lab: lab.place, transcript: transcript.place }));
  }

  /**
   * Keeps a part, unless it is kept already.
   * @param {Part} part
   * @param {string | null} text
   */
  async put(part, text) {
    const held = this.parts[part];
    if (held.text === text) {
      return;
    }
    held.text = text;
    if (text === null || (text.length <= LARGE && stored(key(` ${part}`), text))) {
      held.place = text === null ? null : "here";
      this.told.delete(part);
      if (text === null) {
        stored(key(` ${part}`), null);
      }
      return;
    }
    await this.putLarge(part, text);
  }

  /**
   * Until a large text is kept, the one before it stays.
   * @param {Part} part
   * @param {string} text
   */
  async putLarge(part, text) {
    const held = this.parts[part];
    const ticket = newTicket();
    this.writing += 1;
    try {
      await putText(ticket, text);
      if (held.text === text) {
        held.place = { ticket };
        stored(key(` ${part}`), null);
        this.told.delete(part);
        this.head();
      }
      removeOldTexts().catch(() => {});
    } catch {
      if (held.text === text) {
        this.tell(part);
      }
    } finally {
      this.writing -= 1;
    }
  }

  /** @param {Part} part */
  tell(part) {
    // it is tried again with the next change
    this.parts[part].text = null;
    if (part === "transcript") {
      // an older transcript would be taken for this one
      this.parts[part].place = null;
      stored(key(" transcript"), null);
      this.head();
    }
    if (!this.told.has(part)) {
      this.told.add(part);
      this.say(`This browser has no room to keep the ${WHAT[part]}: a reload does not bring it back as it is now. ${
        part === "lab" ? "Save its script." : "Its file can be opened again."}`);
    }
  }

  forget() {
    ["", ...PARTS.map((part) => ` ${part}`)].forEach((part) => stored(key(part), null));
    PARTS.forEach((part) => (this.parts[part] = { text: null, place: null }));
  }

  /** Lets the browser ask before it leaves while a large text is on its way. */
  listen() {
    addEventListener("beforeunload", (event) => {
      if (this.writing > 0) {
        event.preventDefault();
        event.returnValue = "";
      }
    });
  }

  /**
   * The kept state, or null. If the address has a script that differs from the kept state's, the address wins.
   * @returns {Promise<Kept | null>}
   */
  async kept() {
    const head = headHere();
    if (head === null) {
      return null;
    }
    /** @type {Part[]} */
    const lost = [];
    const [lab, transcript] = await Promise.all(PARTS.map(async (part) => {
      const text = await this.textAt(part, head[part]);
      if (text === null && head[part] !== null) {
        lost.push(part);
      }
      return text;
    }));
    const { view, file } = head;
    return { view, file, lab: labOf(lab), transcript, lost };
  }

  /**
   * The text of a part, or null if it is not there.
   * @param {Part} part
   * @param {Place} place
   */
  async textAt(part, place) {
    if (place === null) {
      return null;
    }
    try {
      const text = place === "here" ? sessionStorage.getItem(key(` ${part}`)) : await textOf(place.ticket);
      this.parts[part] = text === null ? { text, place: null } : { text, place };
      return text;
    } catch {
      return null;
    }
  }
}

/** @returns {Head | null} */
function headHere() {
  try {
    const head = JSON.parse(sessionStorage.getItem(key()) ?? "null");
    const isForeign = holdsScript(location.hash) && head?.hash !== location.hash;
    return head?.version === VERSION && !isForeign ? head : null;
  } catch {
    return null;
  }
}

/**
 * @param {string | null} text
 * @returns {KeptLab | null}
 */
function labOf(text) {
  try {
    return JSON.parse(text ?? "null");
  } catch {
    return null;
  }
}
