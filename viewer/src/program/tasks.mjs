// `run` and `audit` of the program `console`, by the engine of this module: the same bytes, messages and exit
// statuses. Both stream.
import {Audit, bytesOf} from "../rudekpi/audits.mjs";
import {BAD_LINE, DONE, inUse, LOG_FULL, RULE_SET_NAMES, Session} from "../rudekpi/engine.mjs";
import {Damaged, MemoryError} from "../rudekpi/errors.mjs";
import {resumed} from "../rudekpi/resumption.mjs";
import {LONGEST_LINE, whyNoCommand} from "../script_words.mjs";
import {Source, StreamFault, writeAll} from "./streams.mjs";

/** @typedef {import("./streams.mjs").Files} Files */
/** @typedef {import("./words.mjs").Given} Given */

// writes the engine's text when there is this much of it
const MUCH = 1 << 16;
const LF = 10;
const OUT = 1;
const [OK, REFUSED, BAD, FAILED, FULL] = [0, 1, 2, 3, 4];
/** @type {Record<string, string>} */
const REASONS = {
  ENOENT: "no such file",
  EISDIR: "is a folder",
  EACCES: "may not be read",
  EPERM: "may not be read",
};

/**
 * A name as it is shown: a question mark for a control character, so that it stays in one line.
 * @param {string} name
 */
function shownName(name) {
  return name.replace(/[\0-\x1f\x7f]/g, "?");
}

/** Why a task ended early: the lines that it reports, and its status. */
export class TaskEnd extends Error {
  /**
   * @param {number} status
   * @param {...string} lines
   */
  constructor(status, ...lines) {
    super(lines.join("\n"));
    this.status = status;
    this.lines = lines;
  }
}

/**
 * What an act on a named file returns. Throws `TaskEnd` if a read fails.
 * @template Result
 * @param {string} path
 * @param {() => Result} act
 */
function ofFile(path, act) {
  try {
    return act();
  } catch (wrong) {
    if (wrong instanceof StreamFault && wrong.way === "read") {
      throw new TaskEnd(FAILED, "! read failed", `! ${shownName(path)}: ${REASONS[wrong.code] ?? "cannot be read"}`);
    }
    throw wrong;
  }
}

/**
 * All bytes of a file.
 * @param {Files} files
 * @param {string} path
 */
function wholeFile(files, path) {
  return ofFile(path, () => {
    const source = new Source(files, path);
    const pieces = [];
    for (let piece = source.read(); piece.length > 0; piece = source.read()) {
      pieces.push(piece.slice());
    }
    source.close();
    const whole = new Uint8Array(pieces.reduce((sum, piece) => sum + piece.length, 0));
    pieces.reduce((at, piece) => (whole.set(piece, at), at + piece.length), 0);
    return whole;
  });
}

/**
 * The session that the words of `run` ask for. Throws `TaskEnd`.
 * @param {Files} files
 * @param {Given} given
 */
function sessionOf(files, given) {
  if (given.from === undefined) {
    const nodes = Number(given.nodes), present = Number(given.present ?? given.nodes);
    if (present > nodes) {
      throw new TaskEnd(BAD, "! bad present");
    }
    return new Session(inUse.engine, /** @type {RuleName} */ (given.rules), nodes, present);
  }
  try {
    return resumed(inUse.engine, wholeFile(files, given.from));
  } catch (wrong) {
    if (wrong instanceof Damaged) {
      throw new TaskEnd(REFUSED, `! ${given.from}: ${wrong.message}`);
    }
    throw wrong;
  }
}

/** Runs the lines of a script as they come, and writes the engine's text. */
class ScriptRun {
  /**
   * @param {Files} files
   * @param {Session} session
   */
  constructor(files, session) {
    this.files = files;
    this.session = session;
    this.engine = session.engine;
    this.line = 0;
    /** The beginning of a line whose end has not come. */
    this.rest = new Uint8Array(0);
    this.write();
  }

  /** Writes the text so far. */
  write() {
    const { engine, session } = this;
    const size = Number(engine.calls.rudekpi_session_length(session.slot));
    if (size > 0) {
      const at = engine.taken.of(size);
      engine.calls.rudekpi_session_read(session.slot, at, BigInt(size));
      writeAll(this.files, OUT, engine.bytesAt(at, size));
    }
  }

  /**
   * Carries out all lines that end in these bytes, and writes their text.
   * @param {Uint8Array} piece
   */
  take(piece) {
    const { rest } = this;
    const bytes = new Uint8Array(rest.length + piece.length);
    bytes.set(rest);
    bytes.set(piece, rest.length);
    const room = this.engine.give(bytes);
    let from = 0;
    for (let end = bytes.indexOf(LF, rest.length); end >= 0; end = bytes.indexOf(LF, from)) {
      this.feed(bytes.subarray(from, end), room + BigInt(from));
      from = end + 1;
    }
    this.rest = bytes.slice(from);
    if (this.rest.length > LONGEST_LINE) {
      this.line += 1;
      this.bad(this.rest);
    }
    this.write();
  }

  /** Carries out a last line without a line feed. */
  end() {
    if (this.rest.length > 0) {
      this.feed(this.rest, this.engine.give(this.rest));
      this.write();
    }
  }

  /**
   * @param {Uint8Array} line
   * @param {bigint} at its address in the engine
   */
  feed(line, at) {
    const { engine, session: { slot } } = this;
    this.line += 1;
    const status = engine.calls.rudekpi_session_feed(slot, at, BigInt(line.length), engine.told);
    if (status === BAD_LINE) {
      this.bad(line);
    }
    if (status !== DONE) {
      this.write();
      throw new TaskEnd(FULL, status === LOG_FULL ? "! log full" : "! out of memory");
    }
    if (engine.calls.rudekpi_session_length(slot) >= MUCH) {
      this.write();
    }
  }

  /**
   * @param {Uint8Array} line
   * @returns {never}
   */
  bad(line) {
    this.write();
    const why = whyNoCommand(line);
    throw new TaskEnd(BAD, `! line ${this.line}: not a command`, ...(why === null ? [] : [`! ${why}`]));
  }
}

/**
 * Runs the source's script and writes its transcript. Throws `TaskEnd`, `StreamFault` or `MemoryError`.
 * @param {Files} files
 * @param {Given} given
 * @param {Source} source
 */
function runOn(files, given, source) {
  const script = new ScriptRun(files, sessionOf(files, given));
  for (let piece = source.read(); piece.length > 0; piece = source.read()) {
    script.take(piece);
  }
  script.end();
  return OK;
}

/**
 * Does a task on a file, or on standard input if none is given or `-`. Throws what the task throws; `TaskEnd`
 * if the file can't be read.
 * @template Result
 * @param {Files} files
 * @param {Given} given
 * @param {(source: Source) => Result} task
 */
function onInput(files, { file = "-" }, task) {
  return file === "-" ? task(new Source(files, null)) : ofFile(file, () => task(new Source(files, file)));
}

/**
 * Runs the script in a file or on standard input, and writes its transcript. Throws `TaskEnd`, `StreamFault` or
 * `MemoryError`.
 * @param {Files} files
 * @param {Given} given
 */
export function run(files, given) {
  return onInput(files, given, (source) => runOn(files, given, source));
}

/**
 * The line of an audit's verdict, and its status. Throws `StreamFault` or `MemoryError`.
 * @param {Source} source
 */
function judged(source) {
  const judge = new Audit();
  try {
    for (let piece = source.read(); piece.length > 0; piece = source.read()) {
      judge.feed(piece);
    }
    const { entries, epochs, moves } = judge.finish();
    return { line: `accepted: ${entries} entries, ${epochs} epochs, ${moves} moves\n`, status: OK };
  } catch (wrong) {
    if (wrong instanceof Damaged) {
      return { line: `${wrong.message}\n`, status: REFUSED };
    }
    throw wrong;
  }
}

/**
 * Judges a transcript in a file or on standard input and writes the verdict. Throws `TaskEnd`, `StreamFault`
 * or `MemoryError`.
 * @param {Files} files
 * @param {Given} given
 */
export function audit(files, given) {
  const { line, status } = onInput(files, given, judged);
  writeAll(files, OUT, bytesOf(line));
  return status;
}

/**
 * Carries out a task, and returns its exit status and the lines that it reports.
 * @param {(files: Files, given: Given) => number} task
 * @param {Files} files
 * @param {Given} given
 * @returns {{ status: number, lines: string[] }}
 */
export function carriedOut(task, files, given) {
  try {
    return { status: task(files, given), lines: [] };
  } catch (wrong) {
    if (wrong instanceof TaskEnd) {
      return wrong;
    }
    if (wrong instanceof StreamFault) {
      return { status: FAILED, lines: [`! ${wrong.message}`] };
    }
    if (wrong instanceof MemoryError || wrong instanceof RangeError) {
      return { status: FULL, lines: ["! out of memory"] };
    }
    throw wrong;
  }
}
