// Reads a transcript. `console audit` judged its content; this checks the form of each line again, so that
// any text is either a transcript or a fault with its line.

const CHANGES = new Set(["link", "unlink", "point", "flag", "join", "leave"]);
const MOST_NAMES = 65535;
const HEADER = /matching (hh|manne) (\d{1,5})(?: (\d{1,5}))?\n/y;
const BASE = /matching2 (hh|manne) (\d{1,5})\n(base (\d{1,8}) spent=(\d{1,10}) nodes=(\d{1,5}) edges=(\d{1,10}))\n/y;
const PLACE = /node (\d{1,5}) (\d{1,5}|-) ([01])\n/y;
const EDGE = /edge (\d{1,5}) (\d{1,5})\n/y;
const REFUSED = "refused \\d+ [a-z-]+";
const MOVE = "\\d+:(?:update|abandon|(?:marry|seduce)>\\d+)";
const FIGURES = ["nodes", "edges", "pairs", "enabled", "charge", "spent"].map((name) => `${name}=\\d+`).join(" ");
const EVENTS = [
  `(?:(?:link|unlink) \\d+ \\d+|point \\d+ (?:\\d+|-)|flag \\d+ [01]|(?:join|leave) \\d+) = (?:ok|${REFUSED})`,
  `step(?: \\d+(?:>\\d+)?)* = (?:${MOVE}(?: ${MOVE})*|${REFUSED})`,
  `show \\d+ = (?:\\d+|-|${REFUSED})`,
  "enabled = (?:none|\\d+:[a-z]+(?: \\d+:[a-z]+)*)",
  "matching = (?:none|\\d+-\\d+(?: \\d+-\\d+)*)",
  `status = ${FIGURES}`,
];
const ENTRY = new RegExp(`[1-9]\\d{0,7} (?:${EVENTS.join("|")})\\n`, "y");

/** A text that is no transcript: its first wrong line, from 1. */
export class TranscriptFault extends Error {
  /**
   * @param {number} line
   * @param {string} wrong
   */
  constructor(line, wrong) {
    super(`line ${line} ${wrong}`);
    this.line = line;
  }
}

/**
 * Such as `3 step 1 = 1:seduce>2`.
 * @param {string} line
 */
export function readEntry(line) {
  const space = line.indexOf(" ");
  const sign = line.indexOf(" = ", space);
  const event = line.slice(space + 1, sign);
  const reply = line.slice(sign + 3);
  const gap = event.indexOf(" ");
  const kind = gap < 0 ? event : event.slice(0, gap);
  const refused = reply.startsWith("refused ");
  return { number: Number(line.slice(0, space)), event, reply, kind, refused, disturbs: CHANGES.has(kind) && !refused };
}

/**
 * `["1", "2"]` of `link 1 2`.
 * @param {Entry} entry
 */
export function wordsOf(entry) {
  return entry.event.split(" ").slice(1);
}

/**
 * The moves in a step's reply; a target is 0 if the rule takes none.
 * @param {Entry} entry
 */
export function movesOf(entry) {
  return entry.reply.split(" ").map((word) => {
    const [, node, rule, target] = /^(\d+):([a-z]+)(?:>(\d+))?$/.exec(word);
    return { node: Number(node), rule, target: Number(target ?? 0) };
  });
}

/**
 * The nodes of an entry: the ends of an edge, the node of a written register, of a join or leave, of a move
 * or a question.
 * @param {Entry} entry
 */
export function nodesOf(entry) {
  if (entry.kind === "step" && !entry.refused) {
    return movesOf(entry).map((move) => move.node);
  }
  const words = wordsOf(entry);
  const named = entry.kind === "link" || entry.kind === "unlink" || entry.kind === "step" ? words : words.slice(0, 1);
  return named.map((word) => Number(word.split(">")[0]));
}

/**
 * @param {string} text
 * @param {number} at
 */
function lineAt(text, at) {
  return text.slice(0, at).split("\n").length;
}

/**
 * The groups of a line that must match at this place.
 * @param {RegExp} pattern
 * @param {string} text
 * @param {number} at
 */
function match(pattern, text, at) {
  pattern.lastIndex = at;
  const found = pattern.exec(text);
  if (!found) {
    throw new TranscriptFault(lineAt(text, at), "is no line of a transcript");
  }
  return found;
}

/**
 * The numbers of a line, none above `most`; `-` is 0.
 * @param {string[]} words
 * @param {number} most
 * @param {string} text
 * @param {number} at
 */
function numbersOf(words, most, text, at) {
  const numbers = words.map((word) => (word === "-" ? 0 : Number(word)));
  if (numbers.some((number) => number > most)) {
    throw new TranscriptFault(lineAt(text, at), "has a name that is none of this network");
  }
  return numbers;
}

/**
 * The base that begins at a place: its numbers, its state for a machine, and its end.
 * @param {string} text
 * @param {number} at
 */
export function readBase(text, at) {
  const [head, rules, capacity, line, ...numbers] = match(BASE, text, at);
  const [names] = numbersOf([capacity], MOST_NAMES, text, at);
  const [number, spent, nodes, edges] = numbers.map(Number);
  const [pointers, flags, here] = [new Int32Array(names + 1), new Uint8Array(names + 1), new Uint8Array(names + 1)];
  const ends = [];
  let end = at + head.length;
  for (let left = nodes; left > 0; left -= 1) {
    const [place, node, pointer, flag] = match(PLACE, text, end);
    const [v, target] = numbersOf([node, pointer], names, text, end);
    [here[v], pointers[v], flags[v]] = [1, target, Number(flag)];
    end += place.length;
  }
  for (let left = edges; left > 0; left -= 1) {
    const [edge, ...both] = match(EDGE, text, end);
    const [low, high] = numbersOf(both, names, text, end);
    if (low >= high || !here[low] || !here[high]) {
      throw new TranscriptFault(lineAt(text, end), "is no edge of two nodes");
    }
    ends.push(low, high);
    end += edge.length;
  }
  return {
    rules,
    names,
    line,
    number,
    spent,
    nodes,
    end,
    state: { here, pointers, flags, ends: Int32Array.from(ends) }
  };
}

/**
 * A header and entries numbered from 1, or a base and the entries after it: `first` is the number that it
 * opens at, `last` that of its last entry, and `length` how many it has. Entries are parsed on demand. Names
 * are 1 to `nodes`. After a header the first `present` nodes are present; a base has a `state`. `bases` are
 * the numbered lines of bases, by the entry before each. Throws `TranscriptFault` for any other text.
 */
export class Transcript {
  /** @param {string} text */
  constructor(text) {
    this.text = text;
    /** @type {number[]} */
    this.starts = [];
    /** @type {Map<number, string>} */
    this.bases = new Map();
    /** @type {RuleName} */
    this.rules = "hh";
    this.nodes = this.present = this.first = this.spent = 0;
    /** @type {MachineState | null} */
    this.state = null;
    this.opening = "";
    let at = text.startsWith("matching2 ") ? this.openAtBase() : this.openAtHeader();
    while (at < text.length) {
      at = text[at] === "m" ? this.passBase(at) : this.passEntry(at);
    }
    this.length = this.starts.length;
    this.last = this.first + this.length;
  }

  openAtHeader() {
    const [header, rules, ...words] = match(HEADER, this.text, 0);
    const [nodes, present] = numbersOf(words.filter(Boolean), MOST_NAMES, this.text, 0);
    numbersOf(words.slice(1).filter(Boolean), nodes, this.text, 0);
    this.rules = /** @type {RuleName} */ (rules);
    this.nodes = nodes;
    this.present = present ?? nodes;
    return header.length;
  }

  openAtBase() {
    const base = readBase(this.text, 0);
    this.rules = /** @type {RuleName} */ (base.rules);
    this.nodes = base.names;
    this.present = base.nodes;
    this.first = base.number;
    this.spent = base.spent;
    this.state = base.state;
    this.opening = base.line;
    return base.end;
  }

  /** @param {number} at */
  passBase(at) {
    const base = readBase(this.text, at);
    if (base.rules !== this.rules || base.names !== this.nodes || base.number !== this.first + this.starts.length) {
      throw new TranscriptFault(lineAt(this.text, at), "begins another base than that of the entries before it");
    }
    this.bases.set(base.number, base.line);
    return base.end;
  }

  /** @param {number} at */
  passEntry(at) {
    const [line] = match(ENTRY, this.text, at);
    if (Number.parseInt(line, 10) !== this.first + this.starts.length + 1) {
      throw new TranscriptFault(lineAt(this.text, at), "has another number than the next entry");
    }
    this.starts.push(at);
    return at + line.length;
  }

  /** @param {number} number */
  entry(number) {
    const at = this.starts[number - this.first - 1];
    return readEntry(this.text.slice(at, this.text.indexOf("\n", at)));
  }

  /**
   * @param {number} number
   * @param {string} wrong
   */
  fault(number, wrong) {
    return new TranscriptFault(lineAt(this.text, this.starts[number - this.first - 1]), wrong);
  }
}
