// Turns an opened script or graph into a network, with the lines that each rule set plays in it.
import {MOST_DRAWN} from "../drawing.mjs";
import {counted, grouped} from "../numbers.mjs";
import {RudekpiError} from "../rudekpi/errors.mjs";
import {resumed} from "../rudekpi/resumption.mjs";
import {readBase} from "../transcript.mjs";
import {GraphFault, readGraph} from "./graph_files.mjs";
import {BadLine, Lab, MOST_ENTRIES} from "./lab.mjs";
import {AddressFault, MOST_NAMES, namesIn} from "./sharing.mjs";
import {entriesOfName, networkOfName} from "./text_kinds.mjs";
import {linesOf, renumbered} from "./texts.mjs";

/** How many further names may join a network that came without a script. */
export const SPARE = 12;

/** @typedef {import("./graph_files.mjs").GraphFormat} GraphFormat */

/**
 * A network with its opened lines, and its name in the selectors. `start` is where it goes on, if it does;
 * `named` whether its nodes have the page's own names.
 * @typedef {Network & { names: number, present: number, lines: string[], title: string, start?: Start,
 * named?: boolean }} Source
 */

/**
 * A transcript that the page plays: its text, its file or an empty name, the places of its nodes if they are
 * drawn, and whether they have the page's own names.
 * @typedef {{ text: string, file: string, layout: Layout | null, named: boolean }} Played
 */

/**
 * A source with the numbers of its lines in their text, the rules that play them, and a message.
 * @typedef {{ source: Source, numbers: number[], rules: RuleName[], said: string }} Opened
 */

/**
 * @param {string} text
 * @param {string} name
 * @param {RuleName[]} rules
 * @returns {Opened}
 */
function readScript(text, name, rules) {
  const { lines, numbers } = linesOf(text);
  const before = entriesOfName(name);
  if (before !== null) {
    throw new GraphFault(
      `it goes on after entry ${grouped(before)} of a transcript: open the transcript that was saved with it`);
  }
  const told = networkOfName(name);
  const names = told?.names ?? namesIn(lines);
  if (names > MOST_NAMES) {
    throw new GraphFault(
      `it is for nodes of ${grouped(names)} names, and this page draws ${MOST_NAMES} at most (console run takes it)`);
  }
  const present = Math.min(names, told?.present ?? names);
  const source = { names, present, nodes: names, lines, title: name === "" ? "a pasted script" : name };
  return {
    source,
    numbers,
    rules: told ? [told.rules] : rules,
    said: `Opened: a script of ${counted(lines.length, "line")}.`
  };
}

/**
 * @param {string} text
 * @param {string} name
 * @param {GraphFormat} format
 * @param {RuleName[]} rules
 * @returns {Opened}
 */
function readNetwork(text, name, format, rules) {
  const { nodes, links, renamed } = readGraph(text, format);
  const lines = links.map(([v, w]) => `link ${v} ${w}`);
  const source = {
    nodes,
    links,
    names: nodes + SPARE,
    present: nodes,
    lines,
    title: name === "" ? `a pasted ${format}` : name
  };
  const numbered = renamed ? ". Its nodes are numbered from 1 here, in the order of their names" : "";
  return {
    source,
    numbers: [],
    rules,
    said: `Opened: the ${format} has ${counted(nodes, "node")} and ${counted(links.length, "edge")}${numbered}.`
  };
}

/**
 * The source of a text. Throws `GraphFault` if it is no graph, or too large to draw. Does not check the lines
 * of a script.
 * @param {string} text
 * @param {string} name
 * @param {string} kind as `kindOf` returned it
 * @param {RuleName[]} rules those that play it if its name gives none
 */
export function sourceOf(text, name, kind, rules) {
  return kind === "script" ? readScript(text, name, rules) :
                             readNetwork(text, name, /** @type {GraphFormat} */ (kind), rules);
}

/**
 * @param {import("../rudekpi/engine.mjs").Engine} engine
 * @param {string} text
 */
function baseAtEnd(engine, text) {
  const session = resumed(engine, new TextEncoder().encode(text));
  try {
    return session.read();
  } finally {
    session.free();
  }
}

/**
 * The network at the end of a transcript. Throws `Damaged` if it is none, and `GraphFault` if the network is
 * too large to draw.
 * @param {import("../rudekpi/engine.mjs").Engine} engine
 * @param {Played} played
 * @returns {Opened}
 */
export function sourceOfEnd(engine, {text, file, named}) {
  const base = baseAtEnd(engine, text);
  const { rules, names, nodes, number } = readBase(base, 0);
  /** @type {string[]} */
  const lines = [];
  if (names > MOST_DRAWN) {
    throw new GraphFault(`it has ${grouped(names)} names, and the page draws ${
      grouped(MOST_DRAWN)} at most (console run --from takes it)`);
  }
  const source = {
    names,
    present: nodes,
    nodes: names,
    lines,
    title: `the end of ${file === "" ? "a transcript" : file}`,
    start: { base, entries: number, file },
    named
  };
  const next = number < MOST_ENTRIES ? `The next entry is ${grouped(number + 1)}.` : "A run takes no more entries.";
  return {
    source,
    numbers: [],
    rules: [/** @type {RuleName} */ (rules)],
    said: `Here is the network after entry ${grouped(number)}. ${next}`
  };
}

/**
 * Throws `BadLine`, with its number in the text, if a line can't be played.
 * @param {import("../rudekpi/engine.mjs").Engine} engine
 * @param {Opened} opened
 */
export function tryOut(engine, {source, rules, numbers}) {
  const { names, present } = source;
  const lab = new Lab(engine, { rules: rules[0], names, present });
  try {
    lab.replay(source.lines);
  } catch (wrong) {
    throw wrong instanceof BadLine ? renumbered(wrong, numbers) : wrong;
  } finally {
    lab.free();
  }
}

/**
 * Whether a fault is the opened text's, to be shown to the user, and not the page's.
 * @param {unknown} wrong
 */
export function isTold(wrong) {
  return wrong instanceof AddressFault || wrong instanceof BadLine || wrong instanceof GraphFault
    || wrong instanceof RudekpiError;
}
