// Random scripts: edits, faults, steps, questions and checkpoints, refused ones too.
import {drawn} from "./wasm.mjs";

const LINES = 60;
const BAD_LINES = [
  "lnk 1 2", "link 1", "step 1  2", " status", "link 1 2 ", "flag 1 2", "drive 1", "link 01 2", "step \u00e9",
  "<img src=x>", "matching hh 2"
];

function lineOf(next, nodes) {
  const name = () => 1 + next(nodes + 1);
  const kinds = [
    () => `link ${name()} ${name()}`,
    () => `link ${name()} ${name()}`,
    () => `link ${name()} ${name()}`,
    () => `unlink ${name()} ${name()}`,
    () => `point ${name()} ${name()}`,
    () => `point ${name()} -`,
    () => `flag ${name()} ${next(2)}`,
    () => `join ${name()}`,
    () => `leave ${name()}`,
    () => `step ${name()}`,
    () => `step ${name()} ${name()}`,
    () => `step ${name()}>${name()}`,
    () => "step",
    () => `show ${name()}`,
    () => "enabled",
    () => "matching",
    () => "status",
    () => "checkpoint",
    () => "",
    () => `drive ${next(100000)} ${1 + next(9)}`,
    () => `scramble ${next(100000)} ${1 + next(5)}`,
  ];
  return kinds[next(kinds.length)]();
}

/** A network and a script; one of four has a line that is no command. */
export function scriptOf(seed) {
  const next = drawn(seed);
  // the first draws of near seeds are near
  next(2);
  const names = 1 + next(14);
  const lines = Array.from({ length: LINES }, () => lineOf(next, names));
  if (next(4) === 0) {
    lines.splice(next(LINES), 0, BAD_LINES[next(BAD_LINES.length)]);
  }
  return { rules: ["hh", "manne"][seed % 2], names, present: names - next(3 < names ? 3 : 1), lines, next };
}

/** The command-line words that play such a script. */
export function wordsOf({rules, names, present}) {
  return ["run", "--rules", rules, "--nodes", `${names}`, "--present", `${present}`];
}
