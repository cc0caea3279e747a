// Why a line of a script is no command, in the words of the Python client's `check`.

export const LONGEST_LINE = 1_048_576;
const MOST_ITEMS = 65_535;
const LONGEST_QUOTED = 40;
// longer numerals are compared by their length alone
const LONGEST_NUMERAL = 24;
// how much alike two words are at least, from 0 to 1, if one may be meant by the other
const ALIKE = 0.6;
const NUMERAL = /^(?:0|[1-9][0-9]*)$/;
const [NODE, NULLABLE, BIT, SEED, TURNS, ITEM] =
  ["a node", "a node or -", "0 or 1", "a seed", "a number of turns", "a node, or A>B"];
/** @type {Map<string, string[]>} */
const COMMANDS = new Map(Object.entries({
  link: [NODE, NODE],
  unlink: [NODE, NODE],
  point: [NODE, NULLABLE],
  flag: [NODE, BIT],
  join: [NODE],
  leave: [NODE],
  step: [ITEM],
  show: [NODE],
  enabled: [],
  matching: [],
  status: [],
  checkpoint: [],
  drive: [SEED, TURNS],
  scramble: [SEED, TURNS],
}));
/** @type {Record<string, bigint[]>} */
const LIMITS = {
  [NODE]: [1n, 65_535n],
  [SEED]: [0n, 2n ** 64n - 1n],
  [TURNS]: [0n, 1_000_000n]
};
// what people write for a command
const MEANT = new Map(Object.entries({
  add: "link",
  connect: "link",
  edge: "link",
  remove: "unlink",
  delete: "unlink",
  cut: "unlink",
  move: "step",
  pairs: "matching",
  match: "matching",
  fault: "point",
  run: "drive",
  base: "checkpoint",
  save: "checkpoint",
  random: "scramble",
  settle: "drive",
  quit: "",
}));

/**
 * Whether bytes begin with some others.
 * @param {Uint8Array} line
 * @param {number[]} bytes
 */
function begins(line, bytes) {
  return bytes.every((byte, at) => line[at] === byte);
}

/**
 * Why a line, without its line feed, is no command; null if it is one, or is empty and skipped.
 * @param {Uint8Array} line
 * @returns {string | null}
 */
export function whyNoCommand(line) {
  const why = whyNotPlain(line) ?? whyNotSpaced(line);
  if (why !== null || line.length === 0) {
    return why;
  }
  const [word, ...rest] = textOf(line).split(" ");
  if (!COMMANDS.has(word)) {
    return whyUnknown(word);
  }
  if (word === "step" && rest.length > MOST_ITEMS) {
    return `a step has at most ${MOST_ITEMS} items`;
  }
  const wanted = word === "step" ? rest.map(() => ITEM) : COMMANDS.get(word);
  if (rest.length === wanted.length) {
    return firstOf(rest.map((text, at) => whyNoWord(text, wanted[at])));
  }
  if ([word, ...rest].some((text) => text.includes(","))) {
    return "there is a comma: words are separated by one space";
  }
  const words = `${rest.length} word${rest.length === 1 ? "" : "s"}`;
  return `\`${word}\` takes ${wanted.join(" and ") || "nothing"}, and not ${words}`;
}

/** @param {(string | null)[]} whys */
function firstOf(whys) {
  return whys.find((why) => why !== null) ?? null;
}

/** @param {Uint8Array} line */
function textOf(line) {
  return new TextDecoder().decode(line);
}

/** @param {Uint8Array} line */
function whyNotPlain(line) {
  if (line.length > LONGEST_LINE) {
    return `a line has at most ${LONGEST_LINE} bytes`;
  }
  if (begins(line, [0xef, 0xbb, 0xbf])) {
    return "the line begins with a byte order mark (BOM): save the file as UTF-8 without one, or as ASCII";
  }
  if (begins(line, [0xff, 0xfe]) || begins(line, [0xfe, 0xff])) {
    return "the file is UTF-16: save it as UTF-8 or ASCII";
  }
  if (line[line.length - 1] === 13) {
    return "the line ends with a carriage return (CRLF): save the file with LF alone";
  }
  const odd = line.find((byte) => byte < 32 || byte >= 127);
  if (odd === 9) {
    return "there is a tab: words are separated by one space";
  }
  return odd === undefined ? null :
                             `there is the byte 0x${odd.toString(16).padStart(2, "0")}: a script is printable ASCII`;
}

/** @param {Uint8Array} line */
function whyNotSpaced(line) {
  const text = textOf(line);
  if (text.startsWith("#") || text.startsWith("//")) {
    return "a script has no comments";
  }
  if (text.startsWith(" ") || text.endsWith(" ")) {
    return "a space stands at the beginning or the end of the line";
  }
  return text.includes("  ") ? "two spaces follow one another: words are separated by one" : null;
}

/** @param {string} word */
function whyUnknown(word) {
  const small = word.toLowerCase();
  const known = [...COMMANDS.keys()];
  if (known.includes(small)) {
    return `commands are written in small letters: \`${small}\``;
  }
  if (NUMERAL.test(word)) {
    return "the line begins with a number, as those of a transcript: a script has the text between the number and ` = `";
  }
  const meant = MEANT.get(small) || nearest(small, known);
  const rest = meant ? `\`${meant}\` may be meant` : `they are ${known.join(", ")}`;
  return `\`${cut(word)}\` is no command: ${rest}`;
}

/** @param {string} text */
function cut(text) {
  return text.slice(0, LONGEST_QUOTED);
}

/**
 * @param {string} text
 * @param {string} kind
 * @returns {string | null}
 */
function whyNoWord(text, kind) {
  if (kind === NULLABLE) {
    return text === "-" ? null : whyNoWord(text, NODE);
  }
  if (kind === ITEM) {
    const parts = text.split(">");
    return parts.length > 2 ? `\`${cut(text)}\` is not A>B, a node that moves and its target` :
                              firstOf(parts.map((part) => whyNoWord(part, NODE)));
  }
  if (/^[0-9]+$/.test(text) && !NUMERAL.test(text)) {
    return `\`${cut(text)}\` has leading zeros: \`${cut(text.replace(/^0+/, "")) || "0"}\``;
  }
  if (kind === BIT) {
    return text === "0" || text === "1" ? null : `\`${cut(text)}\` is not 0 or 1`;
  }
  return whyNoNumber(text, kind);
}

/**
 * @param {string} text
 * @param {string} kind
 */
function whyNoNumber(text, kind) {
  const [least, most] = LIMITS[kind];
  if (!NUMERAL.test(text)) {
    return `\`${cut(text)}\` is not ${kind}: a number from ${least} to ${most}`;
  }
  const isWithin = text.length <= LONGEST_NUMERAL && least <= BigInt(text) && BigInt(text) <= most;
  return isWithin ? null : `${cut(text)} is not ${kind}, which is ${least} to ${most}`;
}

/**
 * The word most like a given one, or an empty text if none is much like it.
 * @param {string} word
 * @param {string[]} known
 */
function nearest(word, known) {
  const likeness = new Map(known.map((name) => [name, (2 * common(name, word)) / (name.length + word.length)]));
  const close = known.filter((name) => likeness.get(name) >= ALIKE);
  return close.sort((a, b) => likeness.get(b) - likeness.get(a) || (a < b ? 1 : -1))[0] ?? "";
}

/**
 * How many letters two words share: those of the longest common part, and of what stands before and after it.
 * @param {string} one
 * @param {string} other
 * @returns {number}
 */
function common(one, other) {
  const [from, at, size] = longestCommon(one, other.slice(0, 2 * LONGEST_QUOTED));
  return size === 0 ?
    0 :
    size + common(one.slice(0, from), other.slice(0, at)) + common(one.slice(from + size), other.slice(at + size));
}

/**
 * The first longest common part of two words: its places in both, and its length.
 * @param {string} one
 * @param {string} other
 */
function longestCommon(one, other) {
  for (let size = Math.min(one.length, other.length); size > 0; size -= 1) {
    const starts = Array.from({ length: one.length - size + 1 }, (_, from) => from);
    const from = starts.find((start) => other.includes(one.slice(start, start + size)));
    if (from !== undefined) {
      return [from, other.indexOf(one.slice(from, from + size)), size];
    }
  }
  return [0, 0, 0];
}
