// The kind of an opened, dropped or pasted text: a transcript, a script, or a graph of some format.

const COMMANDS = new Set([
  "link", "unlink", "point", "flag", "join", "leave", "step", "show", "enabled", "matching", "status", "checkpoint",
  "drive", "scramble"
]);
const ENDS = {
  col: "DIMACS graph",
  dimacs: "DIMACS graph",
  metis: "METIS graph",
  graph: "METIS graph",
  json: "node-link graph",
  graphml: "GraphML",
  transcript: "transcript",
  script: "script"
};
const NAMED = /matching-(hh|manne)-(\d{1,5})(?:-(\d{1,5}))?(?!\d)/;
const GOES_ON = /matching-(?:hh|manne)-\d{1,5}-after-(\d+)/;

/**
 * @typedef {"transcript" | "script" | "GraphML" | "nothing"
 *   | import("./graph_files.mjs").GraphFormat} Kind
 */

/**
 * @param {string} text
 * @returns {Kind}
 */
function byContent(text) {
  const lines = text.split(/\r\n|\n|\r/).filter((line) => line.trim() !== "");
  if (lines.length === 0) {
    return "nothing";
  }
  if (/^matching2? /.test(text)) {
    return "transcript";
  }
  if (/^\s*[[{]/.test(text)) {
    return "node-link graph";
  }
  if (/^\s*</.test(text)) {
    return "GraphML";
  }
  const heads = lines.map((line) => line.trim().split(/\s+/, 1)[0]);
  if (COMMANDS.has(heads[0])) {
    return "script";
  }
  return heads.find((head) => head !== "c") === "p" ? "DIMACS graph" : "edge list";
}

/**
 * The kind of a text: by its content, or if that leaves it open by its file's suffix.
 * @param {string} text
 * @param {string} name the file's, or empty
 * @returns {Kind}
 */
export function kindOf(text, name) {
  const end = /** @type {keyof typeof ENDS} */ (/\.(\w+)$/.exec(name)?.[1].toLowerCase());
  const told = byContent(text);
  if (told === "transcript" || told === "script") {
    return told;
  }
  return /** @type {Kind} */ (ENDS[end]) ?? told;
}

/**
 * In the file name of a script that goes on from a transcript: after how many entries. Null for other names.
 * @param {string} name
 */
export function entriesOfName(name) {
  const [, entries] = GOES_ON.exec(name) ?? [];
  return entries ? Number(entries) : null;
}

/**
 * The network in a script's file name, as the page saves it: `matching-hh-27-15.script`; null if there is
 * none.
 * @param {string} name
 */
export function networkOfName(name) {
  const [, rules, names, present] = NAMED.exec(name) ?? [];
  return rules ? { rules: /** @type {RuleName} */ (rules), names: Number(names), present: Number(present ?? names) } :
                 null;
}
