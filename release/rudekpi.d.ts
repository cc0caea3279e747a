// The types of rudekpi.mjs: networks run by a proved engine, and audits of their transcripts.
// docs/LIBRARIES.md begins with an example; docs/PYTHON.md has the same words for Python.

/**
 * The rules of Hsu and Huang (`hh`: one enabled node moves at a time) or of Manne and others (`manne`: any set
 * of enabled nodes moves at once).
 */
export type RuleSet = "hh" | "manne";

/** A node's name: a number from 1, or the caller's own name; anything but null and undefined. */
export type Name = any;

export type Rule = "update" | "marry" | "seduce" | "abandon";

/** An item of a choice: the node that is to move, and the target that it is to point at. */
export declare class Wish {
  constructor(node: Name, target: Name);
  readonly node: Name;
  readonly target: Name;
}

/** An edit or a fault was carried out. */
export interface Accepted {
  readonly entry: number;
}

/** A node moved by a rule. Moves by marry and seduce have a target; that of any other move is null. */
export interface Move {
  readonly node: Name;
  readonly rule: Rule | string;
  readonly target: Name | null;
}

/** The moves of a step, ascending by the nodes' numbers. */
export type Moves = Move[] & { readonly entry: number };

/** A node's pointer; null points nowhere. */
export interface Shown {
  readonly entry: number;
  readonly node: Name;
  readonly target: Name | null;
}

/** The enabled nodes, ascending by their numbers, each with its rule. */
export type Enabled = Map<Name, Rule | string> & { readonly entry: number };

/** The pairs of nodes that point at each other, each with the node of the lower number first. */
export declare class Matching {
  constructor(entry: number, pairs: [Name, Name][]);
  readonly entry: number;
  readonly pairs: [Name, Name][];
  readonly partners: Map<Name, Name>;
  /** The partner of a node, or null. */
  partner(node: Name): Name | null;
}

/** The counts of a network. At most `charge` moves can come before the next edit or fault. */
export interface Status {
  readonly entry: number;
  readonly nodes: number;
  readonly edges: number;
  readonly pairs: number;
  readonly enabled: number;
  readonly charge: number;
  readonly spent: number;
}

/** A fault of a register. The value of a `pointer` is a neighbour or null, that of a `flag` true or false. */
export interface Fault {
  readonly entry: number;
  readonly node: Name;
  readonly register: "pointer" | "flag" | string;
  readonly value: Name | boolean | null;
}

/** The results of the turns of `drive` (`Moves`) or `scramble` (`Fault`), and the status after them. */
export type Turns<Turn> = Turn[] & { readonly status: Status };

/** A node's registers: its pointer, at a neighbour or null, and its flag. */
export interface Registers {
  readonly pointer: Name | null;
  readonly flag: boolean;
}

/** The state of a network after `number` entries; a base is no entry. */
export interface Base {
  readonly number: number;
  readonly spent: number;
  readonly nodes: Map<Name, Registers>;
  readonly edges: [Name, Name][];
}

/** The counts of an accepted transcript. */
export interface Summary {
  readonly entries: number;
  readonly epochs: number;
  readonly moves: number;
}

/** The edits and faults. `costOf` returns the cost of each, and `reach` the nodes that each would reach. */
export type Disturbance = "link" | "unlink" | "join" | "leave" | "point" | "flag";

/**
 * A network run by the engine, one command a call. Each command but `checkpoint` adds an entry to the
 * transcript. A refused command throws `Refused` and adds an entry too. A name or number out of range throws
 * `RangeError`, and a value of another type throws `TypeError`; neither adds an entry.
 */
export declare class Network {
  /**
   * `nodes` is the number of nodes, named from 1, or their names, which get the numbers 1, 2, .. in that
   * order. The first `present` nodes are present at the start; by default all are. With `keep: false` the
   * transcript is kept only from the last checkpoint on.
   */
  constructor(rules?: RuleSet, nodes?: number | Iterable<Name>, options?: { present?: number; keep?: boolean });
  /**
   * Returns a network that goes on where the run of a transcript, or of a base alone, ended. Its own transcript
   * begins with the base there, and its next entry has the next number: appended to the given transcript, it
   * makes one transcript. `nodes` are the names of all numbers up to the transcript's. Throws `Damaged` if the
   * text is no transcript.
   */
  static resume(
    transcript: string | ArrayBuffer | ArrayBufferView,
    options?: { nodes?: Iterable<Name>; keep?: boolean },
  ): Network;
  readonly rules: RuleSet;
  /**
   * Ends the network and frees its memory; the transcript stays. If there is no memory for the transcript's
   * last part, that part is lost and `MemoryError` is thrown. A network that nothing refers to is ended too.
   */
  close(): void;
  /** All names in the order of their numbers, present or not. */
  get nodes(): Name[];
  numberOf(name: Name): number;
  nameOf(number: number): Name;

  /** Adds an edge. */
  link(a: Name, b: Name): Accepted;
  /** Removes an edge, and clears the pointers that crossed it. */
  unlink(a: Name, b: Name): Accepted;
  /** Makes a name present, without an edge, pointing nowhere and unflagged. */
  join(node: Name): Accepted;
  /** Removes a node, with its edges and the pointers at it; its name may join again. */
  leave(node: Name): Accepted;
  /** A fault: sets the node's pointer to a neighbour or to null. */
  point(node: Name, target: Name | null): Accepted;
  /** A fault: writes the node's married flag (`manne` only). */
  flag(node: Name, value: boolean): Accepted;
  /** Lets these nodes move at once, each by its rule. `new Wish(node, target)` chooses a node's target. */
  step(choice: Iterable<Name | Wish>): Moves;
  /**
   * Makes up to `turns` steps of the seeded daemon, and stops when no node is enabled. Then asks for the
   * status, which is an entry too.
   */
  drive(seed: number | bigint, turns: number): Turns<Moves>;
  /** Makes `faults` seeded faults of registers, then asks for the status, which is an entry too. */
  scramble(seed: number | bigint, faults: number): Turns<Fault>;
  /** Returns a node's pointer. */
  show(node: Name): Shown;
  /** Lists the enabled nodes, each with its rule. */
  enabled(): Enabled;
  /** Lists the pairs of nodes that point at each other. */
  matching(): Matching;
  /** Returns the counts of the network, the charge, and the moves since the last edit or fault. */
  status(): Status;
  /** Writes the lines of a base into the transcript. These lines are no entry. */
  checkpoint(): Base;
  /**
   * Ends the transcript, and goes on in the same state with a new one, whose entries count from 1. Returns the
   * transcript that ends, with the base of the state. The network's transcript then begins with the base of the
   * same state, numbered 0; `audit` accepts both. A log takes 16,777,216 entries: called before it is full, this
   * lets a network run for weeks. Throws `MemoryError` if memory runs out; then nothing has changed. With
   * `NoReply` the network goes on anew, and the next `renumber` returns this text before its own.
   */
  renumber(): string;

  /** Returns a node's partner, or null. This and the following calls add no entry. */
  partner(node: Name): Name | null;
  /**
   * The cost, in moves, of an edit or a fault if it came now: `net.costOf("unlink", a, b)`. Throws
   * `RangeError` if the event would be refused. To tell that from a cost of 0, looks at the whole network.
   */
  costOf(word: Disturbance, ...given: Name[]): number;
  /**
   * The most moves that an edit or a fault of a silent network can cause; `null` if a rule is enabled. Throws
   * the errors that `costOf` throws.
   */
  silentCostOf(word: Disturbance, ...given: Name[]): number | null;
  /** The nodes that an edit or a fault would reach if it came now; none if it would be refused. */
  reach(word: Disturbance, ...given: Name[]): Set<Name>;
  /** Whether a node stays still until an edit or a fault reaches it, whatever the daemon chooses. */
  isAtRest(node: Name): boolean;
  /** The nodes that are not at rest: only these may move before the next edit or fault. */
  restless(): Name[];
  /** The most moves that can still come before the next edit or fault, 0 in silence. */
  movesLeft(): number;
  /**
   * Counts rounds from here on, or from here anew. A round is the shortest part of a run after which each node
   * that was enabled at its start has moved, or was not enabled in some state since. Throws `MemoryError` if
   * memory runs out; then nothing has changed. From then on a step costs a look or two more at each node that
   * moves and at each that it disables. A network that goes on from a transcript counts no rounds before this
   * call.
   */
  countRounds(): void;
  /**
   * How many rounds are complete since the last edit or fault, or since counting began. Constant time. Throws
   * `NotCounted` before `countRounds`.
   */
  rounds(): number;
  /**
   * The most rounds that can still be completed before the next edit or fault, whatever the daemon chooses; 0 in
   * silence. Of n nodes, those complete and those left are together at most n under `hh`, and 2n under `manne`,
   * or 2n - 1 if n is odd. Throws `NotCounted` before `countRounds`.
   */
  roundsLeft(): number;
  /** The nodes that are present. */
  get present(): Name[];
  /** The edges, each with the node of the lower number first. */
  get edges(): [Name, Name][];
  /** All neighbours of a present node. Throws `RangeError` for any other node. Looks at that node alone. */
  neighbours(node: Name): Name[];
  /** The registers of a present node. Throws `RangeError` for any other node. Looks at that node alone. */
  registers(node: Name): Registers;
  /** Returns exactly what `console run` writes for the same commands. */
  transcript(): string;
  /** The audit's summary of the transcript. */
  audit(): Summary;
}

/** What a node of your own holds of itself, or of a neighbour: its pointer, at a name or null, and its flag. */
export interface Held {
  readonly pointer: number | null;
  readonly flag: boolean;
}

/**
 * What a node does by its rule, and its registers afterwards. `repair` is no rule of the machine: the node's
 * pointer is at no neighbour, and becomes null.
 */
export interface LocalMove {
  readonly rule: Rule | "repair";
  readonly target: number | null;
  readonly pointer: number | null;
  readonly flag: boolean;
}

/**
 * Returns what a node does by its rule, from what it holds alone; null if no rule is enabled. In every state of
 * the machine that shows this at the node, the answer is what the machine does there. Names are 1 to 65,535.
 * Throws `BadView` if no state shows this, and `RangeError` or `TypeError` for other values.
 */
export declare function localRule(
  rules: RuleSet, own: Held & { readonly node: number }, neighbours: Map<number, Held>): LocalMove | null;

/**
 * Returns whether the machine may move a node by this rule, to this target; `update` and `abandon` have none.
 * Throws as `localRule` does, and `BadView` for a pointer at no neighbour too.
 */
export declare function mayMove(
  rules: RuleSet, own: Held & { readonly node: number }, neighbours: Map<number, Held>, rule: Rule,
  target?: number | null): boolean;

/** Returns the version of the engine, as `1.0.0`. */
export declare function version(): string;

/** Judges a transcript and returns its counts. Throws `Damaged` if the text is no transcript. */
export declare function audit(text: string | ArrayBuffer | ArrayBufferView): Summary;

/** Judges a transcript that comes in pieces, cut anywhere. Keeps only an incomplete line or base. */
export declare class Audit {
  constructor();
  /** Feeds the next piece. Throws `Damaged` once the pieces so far begin no transcript, whatever follows. */
  feed(piece: string | ArrayBuffer | ArrayBufferView): void;
  /** Returns the counts of the transcript. May be called again. No piece can be fed afterwards. */
  finish(): Summary;
  /** Ends the audit. If `finish` was not called before, there is no verdict. */
  close(): void;
}

/** The base class of all errors of this module but `RangeError` and `TypeError`. */
export declare class RudekpiError extends Error {
  constructor(said: string);
}

/** The network refused an event and is unchanged. */
export declare class Refused extends RudekpiError {
  constructor(event: string, number: number, text: string, entry: number);
  readonly event: string;
  readonly number: number;
  readonly text: string;
  readonly entry: number;
}

/**
 * The log is full, which ended the network. The status and last line are those that the program would have
 * ended with.
 */
export declare class Ended extends RudekpiError {
  constructor(status: number, lastLine: string);
  readonly status: number;
  readonly lastLine: string;
}

/** Memory ran out: nothing was carried out. */
export declare class MemoryError extends RudekpiError {
  constructor(...said: any[]);
}

/** The command was carried out, but memory ran out for the reply. The transcript has it, up to `entry`. */
export declare class NoReply extends MemoryError {
  constructor(entry: number, what?: string);
  readonly entry: number;
}

/** Rounds are asked for, and the network does not count them: call `countRounds` first. */
export declare class NotCounted extends RudekpiError {
  constructor();
}

/**
 * No state of the machine shows what a node holds: the fault is `own-neighbour`, `points-at-itself`, or, of
 * `mayMove` alone, `points-at-stranger`. `node` is the name that it is about, if there is one.
 */
export declare class BadView extends RudekpiError {
  constructor(fault: string, node: number | null);
  readonly fault: string;
  readonly node: number | null;
}

/** A text is no transcript: the number of the first wrong line, and why that line is wrong. */
export declare class Damaged extends RudekpiError {
  constructor(line: number, why: string);
  readonly line: number;
  readonly why: string;
}
