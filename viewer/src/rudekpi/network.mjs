// A network run by the engine in this page or program, one command a call. rudekpi.d.ts documents the calls.
import {readBase} from "../transcript.mjs";
import {bytesOf, summaryOf} from "./audits.mjs";
import {numbersOfEdit, whyRefused} from "./costs.mjs";
import {DONE, Engine, inUse, LOG_FULL, NO_MEMORY, NO_SESSION, NOT_COUNTED, NOT_SILENT, REFUSED, ROW_WORDS, RULE_SET_NAMES, Session} from "./engine.mjs";
import {Ended, EngineFault, MemoryError, NoReply, NotCounted, Refused} from "./errors.mjs";
import {MOST_NODES, MOST_TURNS, Names, numberWithin, seedOf, shown} from "./names.mjs";
import {baseOf, enabledOfRows, faultOfLine, listWith, matchingOfRows, movesOfLine, movesOfRows, REFUSALS, Wish} from "./replies.mjs";
import {resumed} from "./resumption.mjs";

/** @typedef {import("./names.mjs").Name} Name */
/** @typedef {import("./engine.mjs").Calls} Calls */

// takes the text out of the module's memory after this many entries and rows
const OFTEN = 1 << 16;

/** @type {FinalizationRegistry<Session>} */
const FORGOTTEN = new FinalizationRegistry((session) => session.free());

/**
 * A new session. Throws `MemoryError` if memory runs out.
 * @param {RuleName} rules
 * @param {number} names
 * @param {number} present
 */
function begin(rules, names, present) {
  try {
    return new Session(inUse.engine, rules, names, present);
  } catch (wrong) {
    throw wrong instanceof EngineFault ? new MemoryError("no memory for a network") : wrong;
  }
}

/**
 * The numbers of a choice: the node and target of each item, 0 for none. A set is sorted by number, so that
 * the same set is the same step.
 * @param {any} choice
 * @param {Names} names
 * @returns {[number, number][]}
 */
function itemsOf(choice, names) {
  if (typeof choice === "string" || typeof choice?.[Symbol.iterator] !== "function") {
    throw new TypeError(`a step is given a list of nodes, as [1] or [new Wish(1, 2)], and not ${shown(choice)}`);
  }
  /** @type {[number, number][]} */
  const items = [];
  for (const item of choice) {
    items.push(
      item instanceof Wish ? [names.numberOf(item.node), names.numberOf(item.target)] : [names.numberOf(item), 0]);
  }
  if (items.length > MOST_NODES) {
    throw new RangeError(`${items.length} items are more than a step takes, which is ${MOST_NODES}`);
  }
  return choice instanceof Set ? items.sort(([a, b], [c, d]) => a - c || b - d) : items;
}

export class Network {
  /** @type {Session} */
  #session;
  /** @type {Engine} */
  #engine;
  /** @type {Calls} */
  #calls;
  /** @type {bigint} */
  #slot;
  /** @type {bigint} */
  #told;
  /** @type {Names} */
  #names;
  /** @type {boolean} */
  #keeps;
  /** @type {string[]} */
  #parts = [];
  /**
   * The parts of a transcript that was ended by `renumber`, until it is returned.
   * @type {string[]}
   */
  #endedParts = [];
  /** After a renumbering, how many bytes of the unread text end the transcript so far. */
  #ending = 0;
  /** How many entries and rows have come since the text was last taken. */
  #unread = 0;
  /**
   * The state of the network, until a command changes it.
   * @type {{ rules: RuleName, names: number, here: Uint8Array, pointers: Int32Array, flags: Uint8Array, ends:
   *   Int32Array
   *     } | null}
   */
  #state = null;
  /**
   * What has ended the network, other than a close.
   * @type {Ended | null}
   */
  #ended = null;

  /**
   * @param {RuleName} rules
   * @param {number | Iterable<Name>} nodes
   * @param {{ present?: number, keep?: boolean }} options
   * @param {Session | null} begun a session that goes on from a transcript
   */
  constructor(rules = "manne", nodes = 0, { present, keep = true } = {}, begun = null) {
    if (!RULE_SET_NAMES.includes(rules)) {
      throw new RangeError(`rules are "hh" or "manne", and not ${shown(rules)}`);
    }
    this.rules = rules;
    this.#names = new Names(nodes);
    this.#keeps = keep;
    const { count } = this.#names;
    const start = present === undefined ? count : numberWithin(present, count, "a number of nodes that are present");
    this.#session = begun ?? begin(rules, count, start);
    this.#engine = this.#session.engine;
    this.#calls = this.#engine.calls;
    this.#slot = this.#session.slot;
    this.#told = this.#engine.told;
    FORGOTTEN.register(this, this.#session, this);
  }

  /**
   * @param {string | ArrayBuffer | ArrayBufferView} transcript
   * @param {{ nodes?: Iterable<Name>, keep?: boolean }} options
   */
  static resume(transcript, { nodes, keep = true } = {}) {
    const session = resumed(inUse.engine, bytesOf(transcript));
    try {
      // the base that the session has written
      const base = session.read();
      const [, rules, count] = base.slice(0, base.indexOf("\n")).split(" ");
      const net = new Network(/** @type {RuleName} */ (rules), nodes ?? Number(count), { keep }, session);
      if (net.#names.count !== Number(count)) {
        FORGOTTEN.unregister(net);
        throw new RangeError(`${net.#names.count} names for ${count} nodes`);
      }
      net.#parts.push(base);
      return net;
    } catch (wrong) {
      session.free();
      throw wrong;
    }
  }

  close() {
    if (this.#slot !== this.#engine.nowhere) {
      try {
        this.#collect();
      } finally {
        FORGOTTEN.unregister(this);
        this.#session.free();
        this.#slot = this.#engine.nowhere;
      }
    }
  }

  get nodes() {
    return this.#names.all();
  }

  /** @param {Name} name */
  numberOf(name) {
    return this.#names.numberOf(name);
  }

  /** @param {number} number */
  nameOf(number) {
    return this.#names.nameOf(number);
  }

  /**
   * @param {Name} a
   * @param {Name} b
   */
  link(a, b) {
    const names = this.#names;
    const status = this.#calls.rudekpi_link(this.#slot, names.numberOf(a), names.numberOf(b), this.#told);
    return this.#accepted(status, "link", a, b);
  }

  /**
   * @param {Name} a
   * @param {Name} b
   */
  unlink(a, b) {
    const names = this.#names;
    const status = this.#calls.rudekpi_unlink(this.#slot, names.numberOf(a), names.numberOf(b), this.#told);
    return this.#accepted(status, "unlink", a, b);
  }

  /**
   * @param {Name} node
   * @param {Name | null} target
   */
  point(node, target) {
    const names = this.#names;
    const status = this.#calls.rudekpi_point(this.#slot, names.numberOf(node), names.numberOrNull(target), this.#told);
    return this.#accepted(status, "point", node, target);
  }

  /**
   * @param {Name} node
   * @param {boolean} value
   */
  flag(node, value) {
    const written = numberWithin(Number(value), 1, "a flag");
    const status = this.#calls.rudekpi_flag(this.#slot, this.#names.numberOf(node), written, this.#told);
    return this.#accepted(status, "flag", node, written);
  }

  /** @param {Name} node */
  join(node) {
    return this.#accepted(
      this.#calls.rudekpi_join(this.#slot, this.#names.numberOf(node), this.#told), "join", node, undefined);
  }

  /** @param {Name} node */
  leave(node) {
    return this.#accepted(
      this.#calls.rudekpi_leave(this.#slot, this.#names.numberOf(node), this.#told), "leave", node, undefined);
  }

  /** @param {Iterable<Name | Wish>} choice */
  step(choice) {
    const items = itemsOf(choice, this.#names);
    const engine = this.#engine;
    const at = engine.given.of(8 * items.length);
    engine.expectRows(items.length);
    const words = engine.wordsAt(at, 2 * items.length);
    items.forEach(([node, wish], place) => {
      words[2 * place] = node;
      words[2 * place + 1] = wish;
    });
    const status = this.#calls.rudekpi_step(this.#slot, at, BigInt(items.length), this.#told);
    if (status !== DONE) {
      this.#fail(status, ["step", ...items.map(([node, wish]) => this.#shownItem(node, wish))].join(" "));
    }
    this.#note(engine.rows);
    return movesOfRows(this.#names, engine.entry, engine.rowsOf(this.#slot));
  }

  /** @param {Name} node */
  show(node) {
    const status = this.#calls.rudekpi_show(this.#slot, this.#names.numberOf(node), this.#told);
    if (status !== DONE) {
      this.#fail(status, `show ${shown(node)}`);
    }
    this.#note(0);
    return { entry: this.#engine.entry, node, target: this.#names.named(this.#engine.target) };
  }

  enabled() {
    const engine = this.#engine;
    engine.expectRows(this.#names.count);
    const status = this.#calls.rudekpi_enabled(this.#slot, this.#told);
    if (status !== DONE) {
      this.#fail(status, "enabled");
    }
    this.#note(engine.rows);
    return enabledOfRows(this.#names, engine.entry, engine.rowsOf(this.#slot));
  }

  matching() {
    const engine = this.#engine;
    engine.expectRows(this.#names.count);
    const status = this.#calls.rudekpi_pairs(this.#slot, this.#told);
    if (status !== DONE) {
      this.#fail(status, "matching");
    }
    this.#note(engine.rows);
    return matchingOfRows(this.#names, engine.entry, engine.rowsOf(this.#slot));
  }

  status() {
    const engine = this.#engine;
    const status = this.#calls.rudekpi_status(this.#slot, engine.counts, this.#told);
    if (status !== DONE) {
      this.#fail(status, "status");
    }
    this.#note(0);
    return engine.statusTold();
  }

  /**
   * @param {number | bigint} seed
   * @param {number} turns
   */
  drive(seed, turns) {
    return this.#turned("drive", seed, turns, (line) => movesOfLine(this.#names, line));
  }

  /**
   * @param {number | bigint} seed
   * @param {number} faults
   */
  scramble(seed, faults) {
    return this.#turned("scramble", seed, faults, (line) => faultOfLine(this.#names, line));
  }

  checkpoint() {
    this.#collect();
    const status = this.#calls.rudekpi_checkpoint(this.#slot, this.#told);
    if (status !== DONE) {
      this.#fail(status, "checkpoint");
    }
    const text = this.#written(this.#engine.entry);
    if (!this.#keeps) {
      this.#parts = [text];
    }
    return baseOf(this.#names, text);
  }

  /** @param {Name} node */
  partner(node) {
    this.#asked(this.#calls.rudekpi_partner(this.#slot, this.#names.numberOf(node), this.#told));
    return this.#names.named(this.#engine.entry);
  }

  /**
   * @param {string} word
   * @param {...Name} given
   */
  costOf(word, ...given) {
    const numbers = numbersOfEdit(this.#names, word, given, "cost");
    this.#asked(this.#engine.costs[word](this.#slot, ...numbers, this.#told));
    return this.#costOf(word, given, numbers);
  }

  /**
   * @param {string} word
   * @param {...Name} given
   */
  silentCostOf(word, ...given) {
    const numbers = numbersOfEdit(this.#names, word, given, "cost");
    const status = this.#engine.silentCosts[word](this.#slot, ...numbers, this.#told);
    if (status === NOT_SILENT) {
      return null;
    }
    this.#asked(status);
    return this.#costOf(word, given, numbers);
  }

  /**
   * Throws a `RangeError` if the event would be refused.
   * @param {string} word
   * @param {Name[]} given
   * @param {number[]} numbers
   */
  #costOf(word, given, numbers) {
    const cost = this.#engine.entry;
    const why = cost === 0 ? whyRefused(this.#look(), word, numbers[0], numbers[1]) : "";
    if (why !== "") {
      throw new RangeError(`${[word, ...given.map(shown)].join(" ")} would be refused (${why}), so it has no cost`);
    }
    return cost;
  }

  /**
   * @param {string} word
   * @param {...Name} given
   */
  reach(word, ...given) {
    const numbers = numbersOfEdit(this.#names, word, given, "reach");
    const reached = new Set();
    for (const number of this.#ask(() => this.#engine.reachOf(this.#slot, word, numbers))) {
      reached.add(this.#names.nameOf(number));
    }
    return reached;
  }

  /** @param {Name} node */
  isAtRest(node) {
    this.#asked(this.#calls.rudekpi_is_at_rest(this.#slot, this.#names.numberOf(node), this.#told));
    return (this.#engine.entry & 255) !== 0;
  }

  restless() {
    return this.#named(this.#listed(this.#calls.rudekpi_restless));
  }

  movesLeft() {
    this.#asked(this.#calls.rudekpi_moves_left(this.#slot, this.#told));
    return this.#engine.entry;
  }

  countRounds() {
    this.#asked(this.#calls.rudekpi_count_rounds(this.#slot));
  }

  rounds() {
    this.#asked(this.#calls.rudekpi_rounds(this.#slot, this.#told));
    return this.#engine.entry;
  }

  roundsLeft() {
    this.#asked(this.#calls.rudekpi_rounds_left(this.#slot, this.#told));
    return this.#engine.entry;
  }

  get present() {
    return this.#named(this.#listed(this.#calls.rudekpi_nodes));
  }

  get edges() {
    const rows = this.#listed(this.#calls.rudekpi_edges, [], ROW_WORDS);
    return Array.from(
      { length: rows.length / ROW_WORDS },
      (_, at) => /** @type {[Name, Name]} */ (this.#named([rows[ROW_WORDS * at], rows[ROW_WORDS * at + 2]])));
  }

  /** @param {Name} node */
  neighbours(node) {
    const near = this.#listed(this.#calls.rudekpi_neighbours, [this.numberOf(node)]);
    if (near.length === 0) {
      // an absent node has none either
      this.registers(node);
    }
    return this.#named(near);
  }

  /** @param {Name} node */
  registers(node) {
    this.#asked(this.#calls.rudekpi_registers(this.#slot, this.numberOf(node), this.#told));
    const { pointer, flag, present } = this.#engine.nodeTold;
    if (!present) {
      throw new RangeError(`node ${shown(node)} is not present`);
    }
    return { pointer: this.#names.named(pointer), flag };
  }

  renumber() {
    this.#collect();
    const status = this.#calls.rudekpi_session_renumber(this.#slot, this.#told);
    if (status !== DONE) {
      this.#fail(status, "renumber");
    }
    this.#ending = this.#engine.entry;
    try {
      this.#collect();
    } catch (wrong) {
      throw wrong instanceof MemoryError ? new NoReply(0, "the entries are numbered anew, up to") : wrong;
    }
    const ended = this.#endedParts.join("");
    this.#endedParts = [];
    return ended;
  }

  transcript() {
    this.#collect();
    this.#parts = [this.#parts.join("")];
    return this.#parts[0];
  }

  audit() {
    return summaryOf(this.#engine, this.transcript());
  }

  /**
   * Returns the reply to an edit or a fault, or throws the error of its status.
   * @param {number} status
   * @param {string} word
   * @param {Name} node
   * @param {Name | null | undefined} other
   */
  #accepted(status, word, node, other) {
    if (status !== DONE) {
      const words = other === undefined ? [node] : [node, other];
      this.#fail(status, [word, ...words.map((it) => (it === null ? "-" : shown(it)))].join(" "));
    }
    this.#note(0);
    this.#state = null;
    return { entry: this.#engine.entry };
  }

  /**
   * @param {number} node
   * @param {number} wish
   */
  #shownItem(node, wish) {
    const names = this.#names;
    const [mover, target] = [node, wish].map((it) => (it > 0 && it <= names.count ? shown(names.nameOf(it)) : `${it}`));
    return wish === 0 ? mover : `${mover}>${target}`;
  }

  /**
   * @param {number} status
   * @param {string} event
   * @returns {never}
   */
  #fail(status, event) {
    if (status === REFUSED) {
      const { refusal, entry } = this.#engine;
      this.#note(0);
      throw new Refused(event, refusal, REFUSALS[refusal], entry);
    }
    if (status === LOG_FULL) {
      this.close();
      this.#ended = new Ended(4, "! log full");
      throw this.#ended;
    }
    if (status === NO_SESSION) {
      throw this.#ended ?? new TypeError("the network is closed");
    }
    if (status === NOT_COUNTED) {
      throw new NotCounted();
    }
    if (status === NO_MEMORY) {
      throw new MemoryError("the command was not carried out, and the network is as it was");
    }
    throw new RangeError(`${event}: the engine takes no such numbers`);
  }

  /** @param {number} status */
  #asked(status) {
    if (status !== DONE) {
      this.#fail(status, "");
    }
  }

  /**
   * @template Answer
   * @param {() => Answer} question
   */
  #ask(question) {
    try {
      return question();
    } catch (wrong) {
      if (wrong instanceof EngineFault) {
        this.#asked(wrong.status);
      }
      throw wrong;
    }
  }

  /**
   * Counts an entry with `rows` rows, and takes the text if there is much of it.
   * @param {number} rows
   */
  #note(rows) {
    this.#unread += 1 + rows;
    if (this.#unread > OFTEN) {
      this.#collectSoon();
    }
  }

  /** Takes the text, or leaves it for later if memory is short. */
  #collectSoon() {
    try {
      this.#collect();
    } catch (wrong) {
      if (!(wrong instanceof MemoryError)) {
        throw wrong;
      }
    }
  }

  #collect() {
    if (this.#slot !== this.#engine.nowhere) {
      this.#unread = 0;
      const text = this.#session.read();
      if (this.#ending > 0) {
        this.#endedParts.push(...this.#parts, text.slice(0, this.#ending));
        this.#parts = [];
      }
      this.#parts.push(text.slice(this.#ending));
      this.#ending = 0;
    }
  }

  /**
   * The text of a call whose last entry is this. Throws `NoReply` if there is no memory for the text.
   * @param {number} entry
   */
  #written(entry) {
    try {
      const text = this.#session.read();
      this.#parts.push(text);
      return text;
    } catch (wrong) {
      throw wrong instanceof MemoryError ? new NoReply(entry) : wrong;
    }
  }

  /**
   * Makes the turns of a command, one entry each, and the status after them.
   * @template {object} Turn
   * @param {string} word
   * @param {number | bigint} seed
   * @param {number} turns
   * @param {(line: string) => Turn} read
   */
  #turned(word, seed, turns, read) {
    const [drawn, count] = [seedOf(seed), numberWithin(turns, MOST_TURNS, "a number of turns")];
    this.#collect();
    const status = this.#calls[`rudekpi_${word}`](this.#slot, drawn, count, this.#told);
    this.#state = null;
    const { entry } = this.#engine;
    const lines = status === NO_SESSION ? [] : this.#written(entry).split("\n").slice(0, -1);
    if (status === NO_MEMORY && lines.length > 0) {
      throw new NoReply(entry, "some first turns were carried out, the last of them as");
    }
    if (status !== DONE) {
      this.#fail(status, word);
    }
    return listWith(lines.map(read), { status: this.status() });
  }

  /** Read from a base that the engine writes, which is left out of the transcript. */
  #look() {
    if (this.#state === null) {
      this.#collect();
      const { state } = readBase(this.#ask(() => this.#session.base()), 0);
      this.#state = {...state, rules: this.rules, names: this.#names.count };
    }
    return this.#state;
  }

  /**
   * The items of a call that lists all of them, each of `width` numbers.
   * @param {(...words: (bigint | number)[]) => any} call
   * @param {number[]} numbers
   * @param {number} width
   */
  #listed(call, numbers = [], width = 1) {
    return this.#ask(() => this.#engine.listed(this.#slot, call, numbers, width));
  }

  /** @param {number[]} numbers */
  #named(numbers) {
    return numbers.map((number) => this.#names.nameOf(number));
  }
}
