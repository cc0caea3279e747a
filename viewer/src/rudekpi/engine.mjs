// The engine: the proved code as a WebAssembly module, called as C calls the library; include/rudekpi.h
// documents the calls. An address in the module's memory is a number of 64 bits, a `bigint`.
import {EngineFault, MemoryError} from "./errors.mjs";

/**
 * The calls of the module: those of include/rudekpi.h, and two for memory.
 * @typedef {Record<string, (...words: (bigint | number)[]) => any>} Calls
 */

export const DONE = 0;
export const BAD_LINE = 1;
export const LOG_FULL = 2;
export const NO_MEMORY = 3;
export const NO_SESSION = 4;
export const REFUSED = 6;
export const DAMAGED = 7;
export const NOT_SILENT = 8;
export const NOT_COUNTED = 10;

/** The rule sets, by the numbers that the calls take. */
export const RULE_SET_NAMES = ["hh", "manne"];
/** The size in bytes of a slot, of a session or of an audit. */
export const SLOT_BYTES = 16;

// what a call reports, in 32-bit numbers: three numbers and a gap, then the 64-bit number of rows, then the
// counts of a status
const TOLD_ROWS = 4;
const COUNTS = 6;
const DESK_WORDS = 12;
const WORD_BYTES = 4;
export const ROW_WORDS = 3;
const NO_ROWS = new Uint32Array(0);
// the first question for a list has room for this many items
const FEW = 64;
const WIDE_FEW = BigInt(FEW);
// the edits and faults, whose calls are looked up once
const EDITS = ["link", "unlink", "join", "leave", "point", "flag"];
const LEAST_ROOM = 1 << 12;
const LEAST_TEXT = 1 << 15;
// a module with the features that the engine needs beyond the first version of WebAssembly
const PROBE = Uint8Array.of(
  0, 97, 115, 109, 1, 0, 0, 0, 1, 4, 1, 96, 0, 0, 3, 2, 1, 0, 5, 3, 1, 0, 1, 10, 27, 1, 25, 0, 68, 0, 0, 0, 0, 0, 0, 0,
  0, 252, 2, 192, 26, 65, 0, 65, 0, 65, 0, 252, 10, 0, 0, 11);

export function canRun() {
  return typeof WebAssembly === "object" && WebAssembly.validate(PROBE);
}

/** Room in the module's memory that grows as needed. */
class Room {
  /** @param {Engine} engine */
  constructor(engine) {
    this.engine = engine;
    this.at = 0n;
    this.size = 0;
  }

  /**
   * The address of this many bytes. Throws `MemoryError` if memory runs out.
   * @param {number} size
   */
  of(size) {
    if (size > this.size) {
      const wanted = Math.max(size, 2 * this.size, LEAST_ROOM);
      const at = this.engine.roomFor(wanted);
      if (this.size > 0) {
        this.engine.calls.rudekpi_give_back(this.at);
      }
      this.at = at;
      this.size = wanted;
    }
    return this.at;
  }
}

export class Engine {
  /**
   * @param {Calls} calls
   * @param {WebAssembly.Memory} memory
   */
  constructor(calls, memory) {
    this.calls = calls;
    this.memory = memory;
    this.given = new Room(this);
    this.taken = new Room(this);
    this.told = this.roomFor(DESK_WORDS * WORD_BYTES);
    this.counts = this.told + BigInt(COUNTS * WORD_BYTES);
    this.desk = Number(this.told) / WORD_BYTES;
    /** A slot that stays empty: questions to it return that there is no session. */
    this.nowhere = this.slot();
    this.numbers = new Uint32Array(memory.buffer);
    this.costs = this.ofEdits("cost_of");
    this.silentCosts = this.ofEdits("silent_cost_of");
    this.reaches = this.ofEdits("reach_of");
    // so that short texts can be read even if memory runs out
    this.taken.of(LEAST_TEXT);
  }

  /**
   * The calls with this name for each edit and fault.
   * @param {string} name
   * @returns {Calls}
   */
  ofEdits(name) {
    return Object.fromEntries(EDITS.map((word) => [word, this.calls[`rudekpi_${name}_${word}`]]));
  }

  /** @param {BufferSource} bytes */
  static async load(bytes) {
    const { instance } = await WebAssembly.instantiate(bytes, {});
    const { memory, ...calls } = instance.exports;
    return new Engine(
      /** @type {Calls} */ (/** @type {unknown} */ (calls)),
      /** @type {WebAssembly.Memory} */ (/** @type {unknown} */ (memory)));
  }

  /**
   * The address of this many bytes, until they are given back. Throws `MemoryError` if memory runs out.
   * @param {number} size
   */
  roomFor(size) {
    const at = this.calls.rudekpi_room(BigInt(size));
    if (at === 0n) {
      throw new MemoryError(`no memory for ${size} bytes`);
    }
    return at;
  }

  /** The address of a new, empty slot for a session or an audit. */
  slot() {
    const at = this.roomFor(SLOT_BYTES);
    this.bytesAt(at, SLOT_BYTES).fill(0);
    return at;
  }

  /** All of memory; an old view is void once memory grows. */
  words() {
    if (this.numbers.length === 0) {
      this.numbers = new Uint32Array(this.memory.buffer);
    }
    return this.numbers;
  }

  get entry() {
    return this.words()[this.desk];
  }

  get refusal() {
    return this.words()[this.desk + 1];
  }

  /** The pointer of the node that the last call asked about, 0 for null. */
  get target() {
    return this.words()[this.desk + 2];
  }

  get rows() {
    return this.words()[this.desk + TOLD_ROWS];
  }

  /** What a question for a node's registers wrote; the pointer 0 is null. */
  get nodeTold() {
    const words = this.words();
    // two bytes after the pointer, each 0 or 1
    const written = words[this.desk + 1];
    return { pointer: words[this.desk], flag: (written & 255) !== 0, present: ((written >> 8) & 255) !== 0 };
  }

  statusTold() {
    const words = this.words();
    const { desk } = this;
    const at = desk + COUNTS;
    return {
      entry: words[desk],
      nodes: words[at],
      edges: words[at + 1],
      pairs: words[at + 2],
      enabled: words[at + 3],
      charge: words[at + 4],
      spent: words[at + 5]
    };
  }

  /**
   * Valid until the next call.
   * @param {bigint} at
   * @param {number} size
   */
  bytesAt(at, size) {
    return new Uint8Array(this.memory.buffer, Number(at), size);
  }

  /**
   * Valid until the next call.
   * @param {bigint} at
   * @param {number} count
   */
  wordsAt(at, count) {
    const first = Number(at) / WORD_BYTES;
    return this.words().subarray(first, first + count);
  }

  /**
   * Copies bytes into the module and returns their address.
   * @param {Uint8Array} bytes
   */
  give(bytes) {
    const at = this.given.of(bytes.length + 1);
    this.bytesAt(at, bytes.length).set(bytes);
    return at;
  }

  /**
   * Makes room for the rows of an answer, so that none is lost. Throws `MemoryError` if memory runs out.
   * @param {number} most
   */
  expectRows(most) {
    this.taken.of(most * ROW_WORDS * WORD_BYTES);
  }

  /**
   * Three numbers a row; valid until the next call.
   * @param {bigint} slot
   */
  rowsOf(slot) {
    const count = this.rows;
    if (count === 0) {
      return NO_ROWS;
    }
    const at = this.taken.of(count * ROW_WORDS * WORD_BYTES);
    this.calls.rudekpi_rows(slot, at, BigInt(count));
    return this.wordsAt(at, ROW_WORDS * count);
  }

  /**
   * The nodes that an edit or a fault would reach, ascending. Changes nothing. Among `numbers` 0 is null.
   * Throws `EngineFault` if there is no session, a name is out of range or memory runs out.
   * @param {bigint} slot
   * @param {string} word of a script, as `unlink`
   * @param {number[]} numbers
   */
  reachOf(slot, word, numbers) {
    return this.listed(slot, this.reaches[word], numbers);
  }

  /**
   * The items of a call that lists all of them if there is room, each of `width` numbers. Throws `EngineFault`
   * if the call fails.
   * @param {bigint} slot
   * @param {(...words: (bigint | number)[]) => any} ask
   * @param {number[]} numbers
   * @param {number} width
   */
  listed(slot, ask, numbers, width = 1) {
    for (let room = FEW, wide = WIDE_FEW;;) {
      const at = this.taken.of(WORD_BYTES * width * room);
      const status =
        numbers.length === 1 ? ask(slot, numbers[0], at, wide, this.told) : ask(slot, ...numbers, at, wide, this.told);
      if (status !== DONE) {
        throw new EngineFault(status);
      }
      const words = this.words();
      const found = words[this.desk];
      if (found <= room) {
        const begin = Number(at) / WORD_BYTES;
        const list = [];
        for (let place = begin; place < begin + width * found; place += 1) {
          list.push(words[place]);
        }
        return list;
      }
      room = found;
      wide = BigInt(room);
    }
  }
}

/** The engine of this page or program, once it is loaded. */
export const inUse = {
  engine: /** @type {Engine | null} */ (null)
};

/** A session that runs a script line by line, and its unread text. */
export class Session {
  /**
   * Throws `EngineFault` if the numbers are out of range, or memory runs out.
   * @param {Engine} engine
   * @param {RuleName} rules
   * @param {number} names
   * @param {number} present
   * @param {bigint | null} begun the slot of a session that has begun already
   */
  constructor(engine, rules, names, present, begun = null) {
    this.engine = engine;
    this.calls = engine.calls;
    this.slot = begun ?? engine.slot();
    if (begun !== null) {
      return;
    }
    const status = this.calls.rudekpi_session_new(RULE_SET_NAMES.indexOf(rules), names, present, this.slot);
    if (status !== DONE) {
      this.calls.rudekpi_give_back(this.slot);
      throw new EngineFault(status);
    }
  }

  /** @param {number} status */
  hear(status) {
    if (status !== DONE) {
      throw new EngineFault(status);
    }
  }

  /**
   * Carries out the next line. Throws `EngineFault` if the line is no command, or if memory or the log is full.
   * @param {string} line
   */
  feed(line) {
    const bytes = new TextEncoder().encode(line);
    const at = this.engine.give(bytes);
    this.hear(this.calls.rudekpi_session_feed(this.slot, at, BigInt(bytes.length), this.engine.told));
  }

  /** The text since the last read. Throws `MemoryError` if there is no room for it. */
  read() {
    const size = Number(this.calls.rudekpi_session_length(this.slot));
    const at = this.engine.taken.of(size);
    this.calls.rudekpi_session_read(this.slot, at, BigInt(size));
    return new TextDecoder().decode(this.engine.bytesAt(at, size));
  }

  /**
   * The lines of a base. They are no entry, and no later text contains them. The caller must have read all text
   * before.
   */
  base() {
    this.hear(this.calls.rudekpi_checkpoint(this.slot, this.engine.told));
    return this.read();
  }

  /**
   * Whether a node is at rest: it does not move until an edit or a fault reaches it.
   * @param {number} node
   */
  isAtRest(node) {
    this.hear(this.calls.rudekpi_is_at_rest(this.slot, node, this.engine.told));
    // one byte is written
    return (this.engine.entry & 255) !== 0;
  }

  /** The most moves that can come before the next edit or fault, 0 in silence. */
  movesLeft() {
    this.hear(this.calls.rudekpi_moves_left(this.slot, this.engine.told));
    return this.engine.entry;
  }

  /** Counts rounds from here on. Throws `EngineFault` if memory runs out. */
  countRounds() {
    this.hear(this.calls.rudekpi_count_rounds(this.slot));
  }

  /** How many rounds are complete since the last edit or fault, or since counting began. */
  rounds() {
    this.hear(this.calls.rudekpi_rounds(this.slot, this.engine.told));
    return this.engine.entry;
  }

  /** The most rounds that can come before the next edit or fault, 0 in silence. */
  roundsLeft() {
    this.hear(this.calls.rudekpi_rounds_left(this.slot, this.engine.told));
    return this.engine.entry;
  }

  /**
   * None if the event would be refused.
   * @param {string} line of a script
   */
  reachOf(line) {
    const [word, ...given] = line.split(" ");
    return this.engine.reachOf(this.slot, word, given.map((text) => (text === "-" ? 0 : Number(text))));
  }

  /** Ends the session and frees its memory. */
  free() {
    this.calls.rudekpi_session_free(this.slot);
    this.calls.rudekpi_give_back(this.slot);
    this.slot = this.engine.nowhere;
  }
}
