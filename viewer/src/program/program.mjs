// The module as a program: `node rudekpi.mjs run ..` and `node rudekpi.mjs audit ..`.
import {StreamFault, writeAll} from "./streams.mjs";
import {audit, carriedOut, run} from "./tasks.mjs";
import {askedBy, BadWords} from "./words.mjs";

/** @typedef {import("./streams.mjs").Files} Files */

const [OUT, FAULTS] = [1, 2];
const BAD = 2;
const FAILED = 3;
// the sign that stands for bytes that are no UTF-8
const REPLACED = "\ufffd";
const TASKS = {
  run,
  audit
};
/** @type {any} */
const { process } = globalThis;

/**
 * Whether the module is the program that runs, and not imported by another.
 * @param {{ url: string, main?: boolean }} meta its `import.meta`; `main` is there in Deno, Bun and Node 24
 */
export async function isProgram({url: address, main}) {
  const path = process?.versions?.node ? process.argv?.[1] : undefined;
  if (!path || !address.startsWith("file:")) {
    return false;
  }
  if (typeof main === "boolean") {
    return main;
  }
  const [{ realpathSync }, { fileURLToPath }] = await Promise.all([builtIn("fs"), builtIn("url")]);
  try {
    return realpathSync.native(path) === realpathSync.native(fileURLToPath(address));
  } catch {
    return false;
  }
}

/**
 * A module of Node. Its name is put together here, so that tools for browsers do not look for it.
 * @param {string} name
 * @returns {Promise<any>}
 */
function builtIn(name) {
  return import(/* webpackIgnore: true */ /* @vite-ignore */ `node:${name}`);
}

/**
 * Writes a text; returns the status, or that of a failed write.
 * @param {Files} files
 * @param {string} text
 * @param {number} status
 */
function show(files, text, status) {
  try {
    writeAll(files, OUT, new TextEncoder().encode(text));
    return status;
  } catch (wrong) {
    if (!(wrong instanceof StreamFault)) {
      throw wrong;
    }
    tell(files, "! write failed\n");
    return FAILED;
  }
}

/**
 * Reports a fault; if that fails, the exit status alone reports it.
 * @param {Files} files
 * @param {string} text
 */
function tell(files, text) {
  try {
    writeAll(files, FAULTS, new TextEncoder().encode(text));
  } catch (wrong) {
    if (!(wrong instanceof StreamFault)) {
      throw wrong;
    }
  }
}

/**
 * Does what the words ask for, and returns the exit status.
 * @param {Files} files
 * @param {string[]} words
 */
function statusOf(files, words) {
  if (words.some((word) => word.includes(REPLACED))) {
    tell(files, "! a word is not UTF-8\n");
    return BAD;
  }
  try {
    const asked = askedBy(words);
    if (asked.task === "show") {
      return show(files, asked.text, 0);
    }
    const { status, lines } = carriedOut(TASKS[asked.task], files, asked.given);
    tell(files, lines.map((line) => `${line}\n`).join(""));
    return status;
  } catch (wrong) {
    if (!(wrong instanceof BadWords)) {
      throw wrong;
    }
    tell(files, wrong.message);
    return BAD;
  }
}

/** Does what the command line asks for, and ends the process. */
export async function runProgram() {
  const files = await builtIn("fs");
  process.exit(statusOf(files, process.argv.slice(2)));
}
