// A network of the playground: its script, the engine's transcript of it, and the state that follows from it.
import {grouped} from "../numbers.mjs";
import {BAD_LINE, LOG_FULL, Session} from "../rudekpi/engine.mjs";
import {EngineFault} from "../rudekpi/errors.mjs";
import {resumed} from "../rudekpi/resumption.mjs";
import {whyNoCommand} from "../script_words.mjs";
import {reachOf} from "./halo.mjs";
import {Seen} from "./seen.mjs";

/** @typedef {import("../rudekpi/engine.mjs").Engine} Engine */

// The most that one line and one lab may produce here. The engine takes more, but the page would freeze
// meanwhile.
export const MOST_FAULTS = 100_000;
export const MOST_TEXT = 1 << 24;
/** The most entries of a run, those before a base included. */
export const MOST_ENTRIES = 1 << 24;
const LONGEST_SHOWN = 60;

/**
 * A word of a command line for a shell.
 * @param {string} name
 */
function quoted(name) {
  return /^[\w.][\w.-]*$/.test(name) ? name : `'${name.replace(/^-/, "./-").replaceAll("'", "'\\''")}'`;
}

/** @param {string} text */
function cut(text) {
  return text.length > LONGEST_SHOWN ? `${text.slice(0, LONGEST_SHOWN)} …` : text;
}

/**
 * A line that was not carried out. `line` is its number from 1, `text` the line, `reason` the words for a
 * writer whose line is no command.
 */
export class BadLine extends Error {
  /**
   * @param {number} number
   * @param {string} text
   * @param {string} why
   * @param {string | null} reason
   */
  constructor(number, text, why, reason = null) {
    super(reason === null ? `line ${number} ${why}: ${cut(text)}` : `line ${number}: ${reason}`);
    this.reason = reason;
    this.line = number;
    this.text = text;
    this.why = why;
  }
}

export class Lab {
  /**
   * @param {Engine} engine
   * @param {{ rules: RuleName, names: number, present: number, start?: Start | null }} network
   */
  constructor(engine, { rules, names, present, start = null }) {
    this.engine = engine;
    this.rules = rules;
    this.names = names;
    this.present = present;
    this.start = start;
    /** Whether a line was fed since the state was last read. */
    this.fed = false;
    /**
     * The nodes that moved since the last picture.
     * @type {number[]}
     */
    this.lit = [];
    this.begin();
  }

  begin() {
    const { engine, rules, names, present, start } = this;
    this.session =
      start ? resumed(engine, new TextEncoder().encode(start.base)) : new Session(engine, rules, names, present);
    try {
      this.session.countRounds();
    } catch (wrong) {
      this.free();
      throw wrong;
    }
    this.seen = new Seen(rules, names, present);
    if (start) {
      this.seen.begin(start.base);
    }
    /** @type {string[]} */
    this.lines = [];
    this.parts = [this.session.read()];
    this.size = this.parts[0].length;
    /** The engine's text since the state was last read. */
    this.unseen = "";
    this.look();
  }

  /**
   * Carries out a line and returns its entries' text. Throws `BadLine` and changes nothing if it is no
   * command or would produce more than this page holds.
   * @param {string} line
   */
  feed(line) {
    this.admit(line);
    try {
      this.session.feed(line);
    } catch (wrong) {
      throw this.faultOf(line, wrong);
    }
    this.lines.push(line);
    const text = this.session.read();
    this.unseen += text;
    this.size += text.length;
    this.parts.push(text);
    return text;
  }

  /**
   * @param {string} line
   * @param {Error} wrong
   */
  faultOf(line, wrong) {
    const status = wrong instanceof EngineFault ? wrong.status : 0;
    if (status === BAD_LINE) {
      return this.bad(line, "is no command", whyNoCommand(new TextEncoder().encode(line)));
    }
    if (status !== LOG_FULL) {
      return wrong;
    }
    const fault = this.bad(line, `needs more than the ${grouped(MOST_ENTRIES)} entries that a run has at most`);
    if (this.session.read() !== "") {
      // first turns of a drive or a scramble were carried out
      this.replay(this.lines);
    }
    return fault;
  }

  /** @param {string} line */
  admit(line) {
    const [, faults] = /^scramble \d+ (\d+)$/.exec(line) ?? [];
    if (Number(faults) > MOST_FAULTS) {
      throw this.bad(
        line,
        `writes more than ${grouped(MOST_FAULTS)} registers, which this page takes at once (console run takes them)`);
    }
    if (this.size > MOST_TEXT) {
      throw this.bad(
        line,
        `comes after ${grouped(MOST_TEXT)} characters of transcript, and this page holds no more (console run does)`);
    }
  }

  /**
   * @param {string} line
   * @param {string} why
   * @param {string | null} reason
   */
  bad(line, why, reason = null) {
    return new BadLine(this.lines.length + 1, line, why, reason);
  }

  /** @param {string[]} lines */
  reachOf(lines) {
    return reachOf(this.session, lines);
  }

  look() {
    this.seen.goOn(this.unseen, this.session);
    this.unseen = "";
    this.fed = false;
    return this.seen;
  }

  /**
   * Plays other lines from where the network began. If one is bad, those before it stay.
   * @param {string[]} lines
   */
  replay(lines) {
    this.free();
    this.begin();
    try {
      lines.forEach((line) => this.feed(line));
    } finally {
      this.look();
    }
  }

  get script() {
    return this.lines.map((line) => `${line}\n`).join("");
  }

  get transcript() {
    this.parts = [this.parts.join("")];
    return this.parts[0];
  }

  /** All edges that the engine ever accepted, each once. */
  get linksEver() {
    const made = [...this.transcript.matchAll(/^\d+ link (\d+) (\d+) = ok$/gm)].map(
      ([, v, w]) => [Number(v), Number(w)].sort((a, b) => a - b));
    return [...new Map(made.map(([v, w]) => [v * 65536 + w, /** @type {Link} */ ([v, w])])).values()];
  }

  /** The command-line words that make the same transcript from the script. */
  get words() {
    const { rules, names, present, before } = this;
    return before ? `run --from ${before}` :
                    `run --rules ${rules} --nodes ${names}${present === names ? "" : ` --present ${present}`}`;
  }

  /** In a command line, the file of the transcript that the network goes on from; else nothing. */
  get before() {
    return this.start && (this.start.file === "" ? "TRANSCRIPT" : quoted(this.start.file));
  }

  /**
   * The command that makes the script's transcript, or judges the transcript and what comes before it.
   * @param {"script" | "transcript"} kind
   */
  commandOf(kind) {
    const [file, { before }] = [`${this.fileName}.${kind}`, this];
    if (kind === "script") {
      return `./console ${this.words} < ${file}`;
    }
    return before ? `cat ${before} ${file} | ./console audit` : `./console audit < ${file}`;
  }

  /** Of a saved script or transcript; a script's includes its network, or after which entry it goes on. */
  get fileName() {
    const { rules, names, present, start } = this;
    const size = present === names ? "" : `-${present}`;
    return `matching-${rules}-${names}${start ? `-after-${start.entries}` : size}`;
  }

  free() {
    this.session.free();
  }
}
