// Types that several modules share. They hold no code: the browser gets none of them.

/** A node, or an edge by its ends with the lower one first. */
interface Thing {
  node?: number;
  low?: number;
  high?: number;
}

/** A place of a drawing, or of the window in pixels. */
interface Place {
  x: number;
  y: number;
  /** Whether the pointer is a finger, if that is known. */
  finger?: boolean;
}

/** The places of nodes, by their numbers from 1, in a box from 0, 0. */
interface Layout {
  x: Float64Array;
  y: Float64Array;
  width: number;
  height: number;
  /** Whether the box has the form of the picture already. */
  framed?: boolean;
}

/** The two ends of a link. */
type Link = number[];

type RuleName = "hh" | "manne";

/** Registers and edges, as a machine loads them: `ends` holds both ends of each edge in turn. */
interface MachineState {
  here: Uint8Array;
  pointers: Int32Array;
  flags: Uint8Array;
  ends: Int32Array;
}

/** A line of a transcript. */
interface Entry {
  number: number;
  event: string;
  reply: string;
  kind: string;
  refused: boolean;
  disturbs: boolean;
}

/** A move of a step's reply; `target` is 0 for a rule that takes none. */
interface Move {
  node: number;
  rule: string;
  target: number;
}

/** A first network. `places` are those of its first nodes, if known. */
interface Network {
  nodes: number;
  links?: Link[];
  places?: Link[];
}

/** The end of a transcript, where a network goes on. */
interface Start {
  /** The base there. */
  base: string;
  /** How many entries come before. */
  entries: number;
  /** The transcript's file, or an empty name. */
  file: string;
}

/** A network with the scripts that one or two labs play in it. */
interface Plan extends Network {
  names: number;
  present: number;
  /** Where it goes on; null if it begins at the opening state. */
  start?: Start | null;
  labs: { rules: RuleName; lines: string[] }[];
  /** The places of nodes, if they are known. */
  layout?: Layout;
}

/** Who judged a transcript, and the verdict; null if it was not judged. */
interface Judge {
  program?: string;
  own?: boolean;
  here?: boolean;
  verdict: string | null;
}

/** A box of the window. */
interface Box {
  left: number;
  top: number;
  width: number;
  height: number;
}

interface Size {
  width: number;
  height: number;
}

/** What is wrong with a text, and its line, or an empty one. */
interface Wrong {
  said: string;
  line: string;
  /** The transcript that remains without a cut end, if there is one. */
  rest?: string | null;
}

/** A node or an edge in words. */
interface Explained {
  heading: string;
  rule: string | null;
  rows: [string, string][];
}

/** A column of a plot for several entries. */
interface Column {
  middle: number;
  least: number;
  most: number;
  mean: number;
}
