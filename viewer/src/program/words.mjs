// The words of the command line, read as the program `console` reads them, for the commands that run here.
import {AUDIT_HELP, AUDIT_USAGE, RUN_HELP, RUN_USAGE, TOP_HELP, TOP_USAGE} from "./help.mjs";

/** The commands of `console` that do not run here. */
const ELSEWHERE = ["picture", "epochs", "storm"];
const MOST_NUMBER = 2n ** 63n;

/**
 * An option with a value: its name, how the help shows the value, and what it may be.
 * @typedef {{ name: string, value: string, range?: [number, number], among?: string[] }} Option
 */
/** @typedef {Record<string, string>} Given the values of options and arguments, by their names */
/**
 * What the words ask for: a task with its values, or a text to print.
 * @typedef {{ task: "run" | "audit", given: Given } | { task: "show", text: string }} Asked
 */
/**
 * A command: its help and usage, its options in their order, and how many arguments it takes.
 * @typedef {{ name: string, help: string, usage: string, options: Option[], files: number }} Command
 */

/** The options of a run that begins a network, which do not go with `--from`. */
const FRESH = ["rules", "nodes", "present"];
/** @type {Option[]} */
const RUN_OPTIONS = [
  { name: "rules", value: "RULES", among: ["hh", "manne"] },
  { name: "nodes", value: "N", range: [0, 65_535] },
  { name: "present", value: "P", range: [0, 65_535] },
  { name: "workers", value: "K", range: [1, 64] },
  { name: "from", value: "FILE" },
];
/** @type {Command[]} */
const COMMANDS = [
  { name: "run", help: RUN_HELP, usage: RUN_USAGE, options: RUN_OPTIONS, files: 1 },
  { name: "audit", help: AUDIT_HELP, usage: AUDIT_USAGE, options: [], files: 1 },
];

/** Words that ask for nothing that runs here. The message is the text to print. */
export class BadWords extends Error {}

/**
 * @param {string} said
 * @param {string} usage
 */
function badWords(said, usage = "") {
  return new BadWords(
    `error: ${said}\n\n${usage === "" ? "" : `Usage: ${usage}\n\n`}For more information, try '--help'.\n`);
}

/**
 * @param {string} word
 * @param {string} usage
 */
function unexpected(word, usage) {
  return badWords(`unexpected argument '${word}' found`, usage);
}

/** @param {Option} option */
function shown({ name, value }) {
  return `--${name} <${value}>`;
}

/**
 * The task of these words, without the program's name. Throws `BadWords`.
 * @param {string[]} words
 * @returns {Asked}
 */
export function askedBy(words) {
  const [first, ...rest] = words;
  if (first === undefined) {
    throw new BadWords(TOP_HELP);
  }
  if (isHelp(first)) {
    return { task: "show", text: TOP_HELP };
  }
  if (first === "--version" || first.startsWith("-V")) {
    return { task: "show", text: "console 1.0.0\n" };
  }
  if (first === "help") {
    return { task: "show", text: rest.length === 0 ? TOP_HELP : commandOf(rest[0]).help };
  }
  if (first.startsWith("-")) {
    throw unexpected(first.split("=")[0], TOP_USAGE);
  }
  return readCommand(commandOf(first), rest);
}

/** @param {string} word */
function isHelp(word) {
  return word === "--help" || word.startsWith("-h");
}

/** @param {string} name */
function commandOf(name) {
  if (ELSEWHERE.includes(name)) {
    throw badWords(`'${name}' does not run here: it needs the program console, on Linux on x86-64`, TOP_USAGE);
  }
  const found = COMMANDS.find((command) => command.name === name);
  if (found === undefined) {
    throw badWords(`unrecognized subcommand '${name}'`, TOP_USAGE);
  }
  return found;
}

/**
 * @param {Command} command
 * @param {string[]} words
 * @returns {Asked}
 */
function readCommand(command, words) {
  const read = new Reader(command, words);
  while (read.at < words.length) {
    if (!read.isOver && isHelp(words[read.at])) {
      read.settle();
      return { task: "show", text: command.help };
    }
    read.next();
  }
  read.settle();
  const { given } = read;
  if (command.name === "run") {
    checkRun(given);
  }
  return { task: /** @type {"run" | "audit"} */ (command.name), given };
}

/** Reads the words behind a command, one after the other. */
class Reader {
  /**
   * @param {Command} command
   * @param {string[]} words
   */
  constructor(command, words) {
    this.command = command;
    this.words = words;
    this.at = 0;
    /** Whether `--` came, behind which there are no options. */
    this.isOver = false;
    /**
     * The last option, until it is checked: when the next option comes, or the end.
     * @type {{ option: Option, value?: string } | null}
     */
    this.last = null;
    /** @type {Given} */
    this.given = {};
    this.files = 0;
  }

  next() {
    const word = this.words[this.at];
    this.at += 1;
    if (word === "--" && !this.isOver) {
      this.isOver = true;
    } else if (this.isOver || !word.startsWith("-") || word === "-") {
      this.file(word);
    } else {
      this.option(word);
    }
  }

  /** @param {string} word */
  file(word) {
    if (this.last && this.last.value === undefined && !this.isOver) {
      this.last.value = word;
      return;
    }
    if (this.files === this.command.files) {
      throw unexpected(word, this.command.usage);
    }
    this.settle();
    this.files += 1;
    this.given.file = word;
  }

  /** @param {string} word */
  option(word) {
    const { usage, options } = this.command;
    const [name] = word.split("=", 1);
    if (word.startsWith("--help=")) {
      const value = word.slice("--help=".length);
      throw badWords(`unexpected value '${value}' for '--help' found; no more were expected`, usage);
    }
    const option = options.find((one) => `--${one.name}` === name);
    if (option === undefined) {
      const flag = name.startsWith("--") ? name : name.slice(0, 2);
      throw badWords(
        `unexpected argument '${flag}' found\n\n  tip: to pass '${flag}' as a value, use '-- ${flag}'`, usage);
    }
    this.settle();
    this.last = { option };
    if (name !== word) {
      this.last.value = word.slice(name.length + 1);
      this.settle();
    }
  }

  /** Checks the last option. */
  settle() {
    if (this.last === null) {
      return;
    }
    const { option, value } = this.last;
    if (value === undefined) {
      throw noValue(option);
    }
    if (option.name in this.given) {
      throw badWords(`the argument '${shown(option)}' cannot be used multiple times`, this.command.usage);
    }
    this.given[option.name] = valueOf(option, value);
    this.last = null;
  }
}

/** @param {Option} option */
function possible({ among }) {
  return among ? `\n  [possible values: ${among.join(", ")}]` : "";
}

/** @param {Option} option */
function noValue(option) {
  return badWords(`a value is required for '${shown(option)}' but none was supplied${possible(option)}`);
}

/**
 * A value if it is one of the option.
 * @param {Option} option
 * @param {string} value
 */
function valueOf(option, value) {
  if (option.among && value === "") {
    throw noValue(option);
  }
  if (option.among && !option.among.includes(value)) {
    throw badWords(`invalid value '${value}' for '${shown(option)}'${possible(option)}`);
  }
  const why = option.range ? whyNoNumber(value, option.range) : null;
  if (why !== null) {
    throw badWords(`invalid value '${value}' for '${shown(option)}': ${why}`);
  }
  return value;
}

/**
 * @param {string} value
 * @param {[number, number]} range
 */
function whyNoNumber(value, [least, most]) {
  if (value === "") {
    return "cannot parse integer from empty string";
  }
  if (!/^[+-]?[0-9]+$/.test(value)) {
    return "invalid digit found in string";
  }
  const number = BigInt(value.replace("+", ""));
  if (number >= MOST_NUMBER || number < -MOST_NUMBER) {
    return `number too ${number < 0 ? "small" : "large"} to fit in target type`;
  }
  return number >= least && number <= most ? null : `${number} is not in ${least}..=${most}`;
}

/** @param {string[]} shown */
function listed(shown) {
  return shown.length === 1 ? ` '${shown[0]}'` : `:\n${shown.map((one) => `  ${one}`).join("\n")}`;
}

/**
 * Throws `BadWords` if options of `run` do not go together, or are missing.
 * @param {Given} given
 */
function checkRun(given) {
  /** @param {string[]} names */
  const those = (names) => names.map((name) => shown(RUN_OPTIONS.find((option) => option.name === name)));
  const names = Object.keys(given).filter((name) => name !== "file");
  const script = given.file === undefined ? "[SCRIPT]" : "<SCRIPT>";
  const beside = names.filter((name) => FRESH.includes(name));
  if (given.from !== undefined && beside.length > 0) {
    const first = names.find((name) => name === "from" || FRESH.includes(name));
    const [against, rest] = first === "from" ? [beside, ["from", "workers"]] : [["from"], [...FRESH, "workers"]];
    throw badWords(
      `the argument '${those([first])[0]}' cannot be used with${listed(those(against))}`,
      `console run ${[...those(names.filter((name) => rest.includes(name))), script].join(" ")}`);
  }
  const missing = given.from === undefined ? those(["rules", "nodes"].filter((name) => !(name in given))) : [];
  if (missing.length > 0) {
    const used = those([...new Set(["rules", "nodes", ...names])]);
    throw badWords(
      `the following required arguments were not provided:\n${missing.map((one) => `  ${one}`).join("\n")}`,
      `console run ${[...used, script].join(" ")}`);
  }
}
