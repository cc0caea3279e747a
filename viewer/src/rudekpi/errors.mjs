// The errors that the module throws, besides `RangeError` and `TypeError`. rudekpi.d.ts documents them.

const STATUSES = [
  "done", "not a command", "the log is full", "memory was refused", "there is no session", "out of range", "refused",
  "no transcript", "not silent", "shown by no state", "rounds are not counted"
];

export class RudekpiError extends Error {
  /** @param {string} said */
  constructor(said) {
    super(said);
    this.name = new.target.name;
  }
}

export class Refused extends RudekpiError {
  /**
   * @param {string} event
   * @param {number} number of the refusal
   * @param {string} text the refusal's name, as `not-linked`
   * @param {number} entry
   */
  constructor(event, number, text, entry) {
    super(`${event}: refused ${number} ${text} (entry ${entry})`);
    this.event = event;
    this.number = number;
    this.text = text;
    this.entry = entry;
  }
}

export class Ended extends RudekpiError {
  /**
   * @param {number} status
   * @param {string} lastLine
   */
  constructor(status, lastLine) {
    super(`the program ended with status ${status}: ${lastLine}`);
    this.status = status;
    this.lastLine = lastLine;
  }
}

export class MemoryError extends RudekpiError {}

export class NoReply extends MemoryError {
  /**
   * @param {number} entry
   * @param {string} what
   */
  constructor(entry, what = "the command was carried out, and there is no memory for its reply:") {
    super(`${what} entry ${entry}, which the transcript has`);
    this.entry = entry;
  }
}

export class NotCounted extends RudekpiError {
  constructor() {
    super("rounds are not counted: call countRounds first");
  }
}

export class Damaged extends RudekpiError {
  /**
   * @param {number} line
   * @param {string} why
   */
  constructor(line, why) {
    super(`line ${line}: ${why}`);
    this.line = line;
    this.why = why;
  }
}

export class BadView extends RudekpiError {
  /**
   * @param {string} fault
   * @param {number | null} node
   */
  constructor(fault, node) {
    super(`no state shows this at a node: ${fault}${node === null ? "" : ` (${node})`}`);
    this.fault = fault;
    this.node = node;
  }
}

/**
 * Why a session did not carry out a call, as the engine reports it. A network turns this into an error of its
 * own.
 */
export class EngineFault extends RudekpiError {
  /** @param {number} status that of the library, from 1 */
  constructor(status) {
    super(STATUSES[status]);
    this.status = status;
  }
}
