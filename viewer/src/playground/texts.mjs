// The script and the transcript at the picture: shown as they grow, edited, copied and saved.
import {byId, field} from "../svg.mjs";
import {RudekpiError} from "../rudekpi/errors.mjs";
import {copy, save} from "./files.mjs";
import {BadLine} from "./lab.mjs";
import {writeAddress} from "./sharing.mjs";

// milliseconds between two updates of a growing text; more for a long one, which a field is slow to show
const GAP = 300;
const CHARACTERS_A_MILLISECOND = 15;
// farther down than any text goes
const BOTTOM = 1e8;
const KINDS = /** @type {const} */ (["script", "transcript"]);

/** @typedef {typeof KINDS[number]} TextKind */

/**
 * The lines of a typed script, without empty ones, each with its number from 1 in the text.
 * @param {string} text
 */
export function linesOf(text) {
  const all = text.split(/\r\n|\n|\r/).map((line, at) => ({ line: line.trim(), number: at + 1 }));
  const kept = all.filter(({ line }) => line !== "");
  return { lines: kept.map(({ line }) => line), numbers: kept.map(({ number }) => number) };
}

/**
 * @param {BadLine} wrong
 * @param {number[]} numbers
 */
export function renumbered(wrong, numbers) {
  return new BadLine(numbers[wrong.line - 1] ?? wrong.line, wrong.text, wrong.why, wrong.reason);
}

/**
 * @typedef {object} TextActs
 * @property {(lines: string[]) => void} play throws a `BadLine` if a line is bad
 * @property {(text: string) => void} judge
 * @property {() => void} pause
 * @property {(text: string, wrong?: boolean) => void} say
 * @property {() => void} saved
 */

export class Texts {
  /**
   * @param {() => import("./lab.mjs").Lab} lab
   * @param {TextActs} acts
   */
  constructor(lab, acts) {
    this.lab = lab;
    this.acts = acts;
    /** @type {TextKind} */
    this.kind = "script";
    this.written = -Infinity;
    /** @type {ReturnType<typeof setTimeout> | null} */
    this.timer = null;
    this.edited = false;
    this.field = field("text");
    KINDS.forEach((kind) => byId(`show-${kind}`).addEventListener("click", () => this.turnTo(kind)));
    this.field.addEventListener("focus", () => {
      acts.pause();
      this.write();
    });
    this.field.addEventListener("input", () => this.edit(true));
    byId("text-use").addEventListener("click", () => this.use());
    byId("text-copy").addEventListener("click", () => this.copy(this.field.value, this.kind));
    byId("text-save").addEventListener("click", () => this.save());
    byId("text-link").addEventListener("click", () => this.link());
  }

  get fileName() {
    return `${this.lab().fileName}.${this.kind}`;
  }

  /** @param {TextKind} kind */
  turnTo(kind) {
    this.kind = kind;
    KINDS.forEach((name) => byId(`show-${name}`).setAttribute("aria-selected", String(name === kind)));
    byId("text-use").textContent = kind === "script" ? "play it" : "judge it, and play";
    byId("text-link").hidden = kind !== "script";
    this.field.setAttribute("aria-label", kind === "script" ? "The script, a line each" : "The transcript");
    this.edit(false);
    this.write();
  }

  /** @param {boolean} edited */
  edit(edited) {
    this.edited = edited;
    this.refuse("");
    field("text-use").disabled = !edited && this.kind === "script";
  }

  drop() {
    this.edit(false);
    this.write();
  }

  /**
   * Shows below the field what is wrong; an empty message means nothing.
   * @param {string} said
   */
  refuse(said) {
    byId("text-wrong").textContent = said;
    byId("text-wrong").hidden = said === "";
    this.field.setAttribute("aria-invalid", String(said !== ""));
  }

  /** Shows the text soon, unless it is edited. */
  show() {
    this.timer ??= setTimeout(
      () => this.write(),
      Math.max(
        0, this.written + Math.max(GAP, this.field.value.length / CHARACTERS_A_MILLISECOND) - performance.now()));
  }

  write() {
    clearTimeout(this.timer);
    this.timer = null;
    this.written = performance.now();
    const lab = this.lab();
    byId("words").textContent = lab.commandOf(this.kind);
    if (!this.edited) {
      this.field.value = lab[this.kind];
      this.field.scrollTop = BOTTOM;
    }
  }

  use() {
    const text = this.field.value;
    if (this.kind === "transcript") {
      this.acts.judge(text);
      return;
    }
    const { lines, numbers } = linesOf(text);
    try {
      this.acts.play(lines);
      this.drop();
    } catch (wrong) {
      this.tell(wrong, numbers);
    }
  }

  /**
   * Shows at its line why a script was not played.
   * @param {Error} wrong
   * @param {number[]} numbers those of its lines in the field
   */
  tell(wrong, numbers) {
    if (wrong instanceof BadLine) {
      const told = renumbered(wrong, numbers);
      this.mark(told.line);
      this.refuse(`The script was not played: ${told.message}.`);
    } else if (wrong instanceof RudekpiError) {
      this.refuse(`The script was not played, since the engine does not go on: ${wrong.message}.`);
    } else {
      throw wrong;
    }
  }

  /** @param {number} number */
  mark(number) {
    const lines = this.field.value.split("\n");
    const from = lines.slice(0, number - 1).reduce((sum, line) => sum + line.length + 1, 0);
    this.edited = true;
    this.field.focus();
    this.field.setSelectionRange(from, from + (lines[number - 1]?.length ?? 0));
  }

  save() {
    save(this.field.value, this.fileName);
    this.acts.saved();
  }

  /**
   * @param {string} text
   * @param {string} what
   */
  async copy(text, what) {
    const copied = await copy(text, this.field);
    this.acts.say(copied ? `The ${what} is copied.` : `The ${what} could not be copied.`, !copied);
    if (copied) {
      this.acts.saved();
    }
  }

  async link() {
    if (this.lab().start) {
      this.acts.say("An address holds no network to go on from: save the transcript as a file.", true);
      return;
    }
    const end = writeAddress(this.lab());
    if (end === null) {
      this.acts.say("The script is too long for an address: save it as a file.", true);
      return;
    }
    history.replaceState(history.state, "", end);
    await this.copy(location.href, "address");
  }
}
